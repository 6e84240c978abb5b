/* What include/egw.h takes of C's headers: the module is compiled without a C library. */
typedef __SIZE_TYPE__ size_t;
#define NULL ((void *)0)
