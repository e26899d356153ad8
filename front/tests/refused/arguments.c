// 3:25: error: f takes 1 arguments, and 2 are given
static int f(int a) { return a; }
int main(void) { return f(1, 2); }
