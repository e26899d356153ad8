typedef const char *const constant_text;
static volatile int flag = 3;
unsigned int const first = 4;
int const volatile long second = 5;
static inline int add(register const int a, int b) { return a + b; }
static int sum(const int *restrict a, int *const restrict b, const int n) { int k, s = 0; for (k = 0; k < n; k++) s += a[k] + b[k]; return s; }
_Noreturn static void stop(int n);
extern void exit(int status);
static void stop(int n) { exit(n); }
static int at_least(int a[static 2]) { return a[1]; }
int main(void)
{
    auto int k = 2;
    register int r;
    constant_text t = "ab";
    const char *p = t, *const *pp = &p;
    int volatile *device = (int volatile *)&flag, list[2] = { 1, 2 };
    for (volatile int i = 0; i < 3; i++) *device += i;
    r = add(k, flag) + sum(list, list, 2) + first + second + pp[0][1] + at_least(list);
    stop(r & 255);
}
