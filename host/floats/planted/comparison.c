/* Planted into a copy of the library, to be found there: two doubles compared. */
int comparison(double a, double b) { return a < b; }
