// 3:18: error: fopen cannot be had: there are no files: use getchar, putchar, puts and printf
#include <stdio.h>
int main(void) { fopen("a", "r"); return 0; }
