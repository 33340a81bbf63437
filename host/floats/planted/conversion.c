/* Planted into a copy of the library, to be found there: a double that becomes an integer, as a length might be read. */
long conversion(const double *length) { return (long)*length; }
