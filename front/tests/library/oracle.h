/* What the tests of this folder call, by gcc's library: each test is compared with what gcc's program of it writes. */
#include <ctype.h>
#include <stdio.h>
#include <stdlib.h>
#include <string.h>

#define rvcc_put_text(text) printf("%s", text)
#define rvcc_put_d(value, width, zero, left) put_number('d', value, width, zero, left)
#define rvcc_put_u(value, width, zero, left) put_number('u', value, width, zero, left)
#define rvcc_put_x(value, width, zero, left) put_number('x', value, width, zero, left)
#define rvcc_put_X(value, width, zero, left) put_number('X', value, width, zero, left)
#define rvcc_put_o(value, width, zero, left) put_number('o', value, width, zero, left)
#define rvcc_put_c(c, width, left) printf((left) ? "%-*c" : "%*c", width, c)
#define rvcc_put_s(text, width, left) printf((left) ? "%-*s" : "%*s", width, text)
#define rvcc_memcpy_int memcpy
#define rvcc_memcpy_char memcpy
#define rvcc_memmove_short memmove
#define rvcc_memmove_char memmove
#define rvcc_memmove_pointer memmove
#define rvcc_memset_char memset
#define rvcc_memset_signed memset
#define rvcc_memset_int memset
#define rvcc_memset_pointer memset
#define rvcc_memcmp_char memcmp
#define rvcc_memcmp_signed memcmp

static inline int put_number(int word, unsigned value, int width, int zero, int left)
{
    char format[8] = "%", *end = format + 1;
    if (left) *end++ = '-';
    if (zero) *end++ = '0';
    *end++ = '*';
    *end++ = word;
    return printf(format, width, value);
}
