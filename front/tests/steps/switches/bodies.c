#include <stdio.h>
static int lifted(int n)
{
    int x = n;
    switch (n) {
        int y;
        putchar('!');
    case 0: return 1;
    case 1: case 2:
        y = 5;
        int z = y * n, x = 100, w[3] = { 1, z };
        { int y = 3; z += y; }
        return z + x + w[1] + w[2];
    default:
        y = n + 1;
        return y * 2;
    case 7: ;
    }
    return x;
}
static int single(int n)
{
    int k = 0;
    switch (n) case 3: k = 4;
    switch (n) { case 3: k++; case 4: k += 2; break; case 5: default: ; }
    switch (n) { }
    switch (n++) default: ;
    return k * 10 + n;
}
static int nested(int n)
{
    int k = 0;
    while (n-- > 0) {
        switch (n & 3) {
        case 0: continue;
        case 1: { int t = n; k += t; } break;
        case 2: switch (k & 1) { case 0: k += 100; break; default: { const int t = 3; k += t; } } break;
        case 'a' - 94: k++;
        }
        k += 2;
    }
    return k;
}
int main(void)
{
    printf("%d %d %d %d\n", lifted(0), lifted(2), lifted(5), lifted(7));
    printf("%d %d %d\n", single(3), single(4), single(9));
    return nested(11) & 255;
}
