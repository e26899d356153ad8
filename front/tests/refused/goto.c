// 2:30: error: goto cannot be had: use loops, break and return
int main(void) { end: if (1) goto end; return 0; }
