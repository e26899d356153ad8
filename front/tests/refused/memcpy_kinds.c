// 3:46: error: memcpy between `short` and `int` cannot be had: an element is read and written as what it is
#include <string.h>
int main(void) { int a[4]; short b[4] = {0}; memcpy(b, a, 8); return 0; }
