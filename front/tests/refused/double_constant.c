// 2:31: error: 1.5 cannot be had: there are no floating numbers
int main(void) { return (int)(1.5 * 2); }
