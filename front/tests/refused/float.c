// 2:26: error: float cannot be had: there are no floating numbers
static int half(int n) { float f = 2; return n; }
int main(void) { return half(1); }
