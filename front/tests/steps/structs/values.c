#include <stdio.h>
struct v { int x, y; };
struct m { struct v row[2]; short s[2][3]; const char *name; struct in { unsigned char c; } in; };
static struct v add(struct v a, struct v b) { a.x += b.x; a.y += b.y; return a; }
static struct v scale(struct v a, int k) { return k == 0 ? (struct v){ 0, 0 } : (struct v){ a.x * k, a.y * k }; }
static struct m make(int k)
{
    struct m r;
    int i, j;
    for (i = 0; i < 2; i++) { r.row[i] = scale((struct v){ k, k + 1 }, i + 1); for (j = 0; j < 3; j++) r.s[i][j] = k * i + j; }
    r.name = "made";
    r.in.c = 7;
    return r;
}
static int index_of(int *n) { return (*n)++; }
static struct v fib(int n) { struct v r = { 0, 1 }; if (n > 0) { struct v p = fib(n - 1); r.x = p.y; r.y = p.x + p.y; } return r; }
static struct v swap(struct v *a, struct v *b) { struct v t = *a; *a = *b; *b = t; return t; }
int main(void)
{
    struct v a = { 1, 2 }, b, c, list[4], *p = list;
    struct m one, two;
    int n = 0;
    b = c = a;
    b.x = 5;
    list[index_of(&n)] = add(a, b);
    list[index_of(&n)] = scale(list[0], 2);
    *++p = add(*p, scale(add(a, a), 3)), p[1] = n ? a : b;
    one = make(3);
    two = one;
    two.in = (struct in){ 9 };
    two.row[0] = one.row[1];
    swap(&a, &list[1]);
    (void)add(a, b);
    add(a, b);
    for (struct v i = { 0, 3 }, j = i; i.x < i.y; i = add(i, (struct v){ 1, 0 })) c = add(c, j);
    n += make(2).row[1].y + make(4).s[1][2] + (b = c).x + add(a, b).y + (n, a).x + fib(10).x;
    do c = scale(c, 1); while (add(c, a).x < 0);
    printf("%d %d %d %d %d %d %d %s %d\n", a.x, a.y, b.x, c.y, list[1].y, list[2].x, two.row[0].y + two.s[1][1], two.name, two.in.c + one.in.c);
    return (n + (int)sizeof(add(a, b)) + (int)sizeof two) & 255;
}
