#include <stdio.h>
static __inline__ int twice(int a) __attribute__((unused));
static __inline__ int twice(int a) { return a * 2; }
__extension__ typedef int number __attribute__((__unused__));
#pragma GCC diagnostic ignored "-Wall"
int main(void)
{
    number a = 0b1010, b = 0x0A;
    const char *e = "Grüße\n";
    while (*e) putchar(*e++);
    return twice(a) + b;
}
