// 2:12: error: a function with `...` cannot be had
static int sum(int n, ...) { return n; }
int main(void) { return sum(1, 2); }
