// 3:1: error: syntax error before `}`
int main(void) { return 0
}
