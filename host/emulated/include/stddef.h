/* What sdd.h needs of the compiler's own header; the toolchain ships none for C. */
#ifndef STDDEF_H
#define STDDEF_H
typedef __SIZE_TYPE__ size_t;
#define NULL ((void *)0)
#endif
