// 2:21: error: a bit-field cannot be had: use masks
struct s { unsigned a : 3; };
int main(void) { return 0; }
