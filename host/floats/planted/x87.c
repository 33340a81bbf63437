/* Planted into a copy of the library, to be found there: a double that becomes a long double, which x86-64 loads into x87. */
long double x87(double a) { return a; }
