// 3:28: error: malloc cannot be had: there is no heap: use an array at file scope
#include <stdlib.h>
int main(void) { char *p = malloc(3); return 0; }
