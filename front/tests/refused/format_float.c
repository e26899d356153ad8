// 3:18: error: %f cannot be had: there are no floating numbers
#include <stdio.h>
int main(void) { printf("%f", 1); return 0; }
