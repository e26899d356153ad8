// 3:25: error: the address of the function f cannot be had: choose between functions with a switch
static int f(void) { return 0; }
int main(void) { return f != 0; }
