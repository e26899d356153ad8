// refused BadNumber 9 line 2
int main(void) { return 08; }
