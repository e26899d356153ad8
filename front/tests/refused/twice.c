// 2:33: error: a is declared twice
int main(void) { int a = 1; int a = 2; return a; }
