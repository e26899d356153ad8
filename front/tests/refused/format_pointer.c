// 3:25: error: %p cannot be had: addresses have no number
#include <stdio.h>
int main(void) { int n; printf("%p", &n); return 0; }
