// refused BadText 4 line 2
int main(void) { return 'ab'; }
