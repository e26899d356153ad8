/* There are the standard input and the standard output, and no `FILE`. The format of `printf` is a text in quotes. */
#ifndef RVCC_STDIO_H
#define RVCC_STDIO_H

#include <stddef.h>

#define EOF (-1)

int getchar(void);
int putchar(int c);
int puts(const char *text);
int printf(const char *format, ...);

#endif
