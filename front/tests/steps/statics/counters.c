int counter_n = 40;
static int counter(void) { static int n = 1, step = 2; return n += step; }
static int other(void) { static int n; { static int n = 5; n++; return n * 10; } n++; return n; }
static const char *name(int k) { static const char *const names[] = { "ab", "cd" }; return names[k & 1]; }
static int *cell(void) { static int a[3] = { 1, 2, 3 }, *p = a; return p++ - a + a; }
int main(void)
{
    int sum = 0;
    counter(); counter(); other();
    sum += *cell() * 3;
    return sum + counter() + other() + counter_n + name(1)[0];
}
