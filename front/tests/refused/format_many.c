// 3:34: error: printf has more arguments than its format takes
#include <stdio.h>
int main(void) { printf("%d", 1, 2); return 0; }
