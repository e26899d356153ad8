// 2:2: error: #error not here
#error not here
int main(void) { return 0; }
