// refused Limit 42 line 3 which 2 count 9
// A function has more than eight parameters.
int many(int a, int b, int c, int d, int e, int f, int g, int h, int i) { return a + b + c + d + e + f + g + h + i; }

int main(void) { return many(1, 2, 3, 4, 5, 6, 7, 8, 9); }
