// 3:28: error: memset of `int` can only set to 0: an element has no bytes of its own
#include <string.h>
int main(void) { int a[4]; memset(a, 255, sizeof a); return 0; }
