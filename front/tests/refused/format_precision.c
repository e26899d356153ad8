// 3:18: error: %.3d: a precision cannot be had in a format of printf
#include <stdio.h>
int main(void) { printf("%.3d", 1); return 0; }
