#include <stdio.h>
static int noisy(int n) { putchar('<'); putchar('0' + n); putchar('>'); return n; }
int main(void)
{
    unsigned char byte = 200;
    signed char small = -3;
    long l = -70000L;
    unsigned long ul = 4000000000UL;
    int i = 0;
    char name[8] = "abc";
    printf("plain\n");
    printf("%d %i %u %x %X %o %c %s %%\n", -12, 34, 4000000000u, 0xbeef, 0xBEEF, 8, 'q', "text");
    printf("[%5d] [%-5d] [%05d] [%3d]\n", 42, 42, -42, 123456);
    printf("[%8x] [%-8X] [%08x] [%4o]\n", 0xabc, 0xabc, 0xabc, 9);
    printf("[%5s] [%-5s] [%2s] [%3c] [%-3c]\n", "ab", "ab", "long", 'x', 'y');
    printf("%hhd %hhu %hd %hu %ld %lu %zu\n", small, byte, -7, 65535, l, ul, sizeof name);
    printf("%d, then %d\n", noisy(1), i + 2);
    printf("%d%s", noisy(3), "!\n");
    printf("%u %d %s\n", byte, small, name);
    if (i == 0) printf("in %s\n", "if"); else printf("else");
    for (; i < 3; printf("%d;", i), i++) ;
    i = printf("\n%d-%s\n", 12, "xy");
    (void)printf("%*d|%-*d|\n", 6, 5, 4, 3);
    printf("");
    return i;
}
