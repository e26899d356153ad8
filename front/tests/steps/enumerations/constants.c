#include <stdio.h>
enum color { RED, GREEN = 5, BLUE, LAST = BLUE * 2 };
typedef enum { LOW = -2147483647 - 1, MINUS = -3, PLUS = 'a', SIZED = sizeof(int) } level;
enum { COUNT = LAST + 1, MASK = 1 << 4 };
static int table[COUNT] = { [RED] = 1, [BLUE] = 3 };
static enum color next(enum color c) { return c == RED ? GREEN : c == GREEN ? BLUE : RED; }
struct s { enum color c; level l; };
int main(void)
{
    enum color c = RED;
    struct s s = { BLUE, MINUS };
    int n = 0;
    enum { LOCAL = 7 } local = LOCAL;
    { enum { RED = 50 }; n += RED; { int GREEN = 3; n += GREEN; } }
    for (c = next(c); c != RED; c = next(c))
        switch (c) { case GREEN: n += 10; break; case BLUE: n += table[BLUE]; break; default: break; }
    if (s.l < 0) n++;
    if (s.c - 7 > 0) n += MASK;
    printf("%d %d %d %d\n", n, (int)s.l, LOW, PLUS);
    return local + (int)sizeof(enum color) + COUNT + SIZED;
}
