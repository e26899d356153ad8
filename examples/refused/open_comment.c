// refused OpenComment 2 line 2
int main(void) { return 0; } /* it has no end
