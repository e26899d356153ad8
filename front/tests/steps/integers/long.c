#include <stdio.h>
#include <stdint.h>
#include <limits.h>
static long sum(long int a, signed long b, long unsigned c) { return a + b + (long)c; }
static unsigned long mix(unsigned long x) { return x * 2654435761UL >> 3; }
static short int s = -2;
static unsigned short int us = 65535;
static signed si = -1;
static unsigned char *bytes(char *p) { return (unsigned char *)p; }
int main(void)
{
    long l = 5L;
    unsigned long int ul = 0xFFFFFFFFUL;
    int *p = (int *)&l;
    char text[] = "xyz";
    printf("%ld %lu %d %u\n", sum(l, -7, 3), mix(ul), s * us, us + 1u);
    printf("%d %d\n", si < 0u, INT_MIN < 0);
    return *p + (int)sizeof(long) + (ul > 1) + bytes(text)[1];
}
