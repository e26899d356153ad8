// refused Syntax 23 line 2
int main(void) { return 0 }
