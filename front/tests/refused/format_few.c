// 3:18: error: printf has no argument for %d
#include <stdio.h>
int main(void) { printf("%d"); return 0; }
