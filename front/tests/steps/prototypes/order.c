extern int later;
static int even(int n);
static int odd(int n) { return n == 0 ? 0 : even(n - 1); }
int even(int n) { return n == 0 ? 1 : odd(n - 1); }
int get(void) { int later_than(int); return later_than(later); }
int later = 3;
int old();
int main(void) { int k = get(); return even(10) * 10 + odd(7) + k + old(3, 4); }
int later_than(int a) { return a + later; }
int old(a, b) int a; char b; { return a * b; }
