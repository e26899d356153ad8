#include <stdlib.h>
static int twice(int a) { return 2 * a; }
int puts(const char *s) { return s[0] + twice(3); }
int main(void) { return puts("A") + abs(-3); }
