// 3:38: error: the format of printf has to be a text in quotes
#include <stdio.h>
int main(void) { const char *f = ""; printf(f); return 0; }
