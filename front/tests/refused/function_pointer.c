// 2:6: error: a pointer to a function cannot be had: choose between the functions with a switch
int (*handler)(int);
int main(void) { return handler(1); }
