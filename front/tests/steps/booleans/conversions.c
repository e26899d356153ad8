#include <stdbool.h>
#include <stdio.h>
struct f { bool on; int n; bool many[3]; };
static bool odd(int n) { return n & 1; }
static bool big(unsigned n) { return n & 0x100; }
static int as_int(bool b) { return b; }
bool global = 256;
static int at(int *n) { return (*n)++; }
int main(void)
{
    bool a = 4, b = 1 > 2, c = (bool)512;
    struct f f = { 2, 2, { 8, 0, 256 } };
    int n = 0, *p = &n;
    bool q = p, list[4] = { 0 };
    char big_char = 128;
    a += 3;
    b |= 6;
    f.on = big(0x1ff) & 2;
    c ^= 3;
    list[at(&n)] = 77;
    list[at(&n)] += 300;
    list[at(&n)]++;
    --list[at(&n)];
    c++;
    printf("%d%d%d%d%d%d%d%d\n", a, b, c, q, f.on, f.n, f.many[0], f.many[2]);
    printf("%d%d%d%d %d\n", list[0], list[1], list[2], list[3], n);
    printf("%d%d%d%d\n", odd(3), odd(4), big(0x100), as_int(big_char));
    n = c++; printf("%d", n); n = c--; printf("%d %d\n", n, c);
    printf("%d %d\n", (int)sizeof(bool), global);
    return a + b * 2 + !c * 4;
}
