#include <stdint.h>
#include <stddef.h>
typedef int number, *pointer, row[3];
typedef row grid[2];
typedef struct node node;
typedef unsigned bits;
struct node { node *next; number value; };
typedef int binary(int, int);
static binary plus;
static int plus(int a, int b) { return a + b; }
static int first(grid g) { return g[1][2]; }
static size_t size(uint16_t w) { typedef short number; return sizeof(number) + sizeof w; }
int main(void)
{
    grid g = { { 1, 2, 3 }, { 4, 5, 6 } };
    node b = { NULL, 2 }, a = { &b, 1 };
    pointer p = &a.value, q = (pointer)g[1];
    int number = 3;
    uint8_t byte = (uint8_t)300;
    int32_t wide = (int32_t)(int8_t)200;
    bits x = (bits)-1 >> 28;
    return *p + q[1] * number + a.next->value + first(g) + (int)size(1) + byte + wide + (int)x + plus(1, 2) + (int)sizeof(grid);
}
