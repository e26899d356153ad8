// 2:12: error: x is declared, and no file defines it
extern int x;
int main(void) { return x; }
