#include <stdio.h>
struct s { int a; };
typedef struct { char c[3]; } unnamed;
struct { int x; } alone = {4};
static int inner(void)
{
    struct s { char c; short d; } v = {1, 2};
    struct pair { struct { int p; } in; int q; } w = {{5}, 6};
    return (int)sizeof v + v.d + w.in.p + w.q;
}
int main(void)
{
    struct s v = {7};
    unnamed u = {{'a', 'b', '\n'}};
    struct pair { int one, two; } p = {1, 2};
    { struct s; struct s { int z[4]; }; struct s t = {{1, 2, 3, 4}}; v.a += (int)sizeof(struct s) + t.z[3]; }
    putchar(u.c[0]); putchar(u.c[1]); putchar(u.c[2]);
    return inner() + v.a + (int)sizeof u + alone.x + p.two;
}
