// 3:47: error: there is no member y in `struct s`
struct s { int x; };
int main(void) { struct s v = { 1 }; return v.y; }
