// 2:48: error: `int *` does not become `char *`: there are no conversions between pointers to different types
int main(void) { int n = 1; char *p = (char *)&n; return *p; }
