// 2:7: error: a union cannot be had: use a struct, or shifts of the bytes
union u { int a; char b[4]; } v;
int main(void) { return v.a; }
