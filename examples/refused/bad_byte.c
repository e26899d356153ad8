// refused BadByte 1 line 2
int main(void) { return @; }
