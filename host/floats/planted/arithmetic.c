/* Planted into a copy of the library, to be found there: a sum of two doubles. */
double arithmetic(double a, double b) { return a + b; }
