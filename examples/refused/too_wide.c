// refused TooWide 5 line 2
int main(void) { return 2147483648; }
