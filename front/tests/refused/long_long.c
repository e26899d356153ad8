// 2:1: error: long long cannot be had: integers have at most 32 bits
long long big;
int main(void) { return 0; }
