// refused OpenText 3 line 2
int main(void) { return 'a; }
