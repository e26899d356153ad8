// 2:10: error: nothing.h: No such file or directory
#include "nothing.h"
int main(void) { return 0; }
