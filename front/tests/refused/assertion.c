// 2:1: error: the static assertion fails: "too small"
_Static_assert(sizeof(int) == 8, "too small");
int main(void) { return 0; }
