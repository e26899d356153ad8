// 2:25: error: 5LL: long long cannot be had, integers have at most 32 bits
int main(void) { return 5LL; }
