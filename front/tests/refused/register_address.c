// 3:1: error: an integer does not become a pointer: there is no memory but that of variables
#define PORT (*(volatile unsigned int *)0x40000000)
int main(void) { return (int)(PORT); }
