// 2:38: error: a pointer does not become an integer: addresses have no number
int main(void) { int n; return (int)&n; }
