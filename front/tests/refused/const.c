// 3:35: error: what stands there is const, and cannot be assigned
struct s { int x; };
int main(void) { const int n = 1; n = 2; return n; }
