/* `offsetof` is read by the front itself. */
#ifndef RVCC_STDDEF_H
#define RVCC_STDDEF_H

typedef unsigned int size_t;
typedef int ptrdiff_t;

#define NULL ((void *)0)

#endif
