/* Planted into a copy of the library, to be found there: a sum for which x86-64 has no instruction either, so that the compiler
 * asks for its routine. */
#ifdef __x86_64__
typedef __float128 wide;
#else
typedef long double wide;
#endif
wide software(wide a, wide b) { return a + b; }
