// 2:25: error: f is called, and not declared
int main(void) { return f(); }
