// 2:25: error: x is not declared
int main(void) { return x; }
