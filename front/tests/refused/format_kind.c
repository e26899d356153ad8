// 3:31: error: printf takes no `int` for %s
#include <stdio.h>
int main(void) { printf("%s", 1); return 0; }
