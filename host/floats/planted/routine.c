/* Planted into a copy of the library, to be found there: a routine of the C library's that computes with floats. */
double trunc(double);
double routine(double a) { return trunc(a); }
