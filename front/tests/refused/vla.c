// 2:29: error: the length of an array has to be a constant
static int f(int n) { int a[n]; return a[0]; }
int main(void) { return f(1); }
