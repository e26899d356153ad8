// 2:25: error: 0x1ffffffff does not fit, integers have at most 32 bits
int main(void) { return 0x1ffffffff != 0; }
