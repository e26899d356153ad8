// 3:25: error: f is called, and no file defines it
int f(void);
int main(void) { return f(); }
