// refused LeftOut 21 line 2
int main(void) { goto a; }
