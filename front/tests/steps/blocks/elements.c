#include <string.h>
#include <stdint.h>
struct p { int x; short y[2]; struct { unsigned char b; } in; };
static int ints[8] = { 1, 2, 3, 4, 5, 6, 7, 8 };
static short grid[3][4];
static const uint8_t bytes[6] = { 10, 20, 30, 40, 50, 60 };
int main(void)
{
    int copy[8];
    uint8_t raw[6];
    char text[16];
    struct p a = { 1, { 2, 3 }, { 4 } }, b, list[3];
    const char *names[2] = { "ab", "cd" }, *more[2];
    unsigned sum = 0, k;
    int more_ints;
    memcpy(copy, ints, sizeof ints);
    memmove(copy + 1, copy, 4 * sizeof copy[0]);
    memcpy(raw, bytes, 6);
    memcpy((void *)text, (const void *)"hello", 6);
    memset(text + 6, 'z', 3);
    memcpy(&b, &a, sizeof b);
    memset(list, 0, sizeof list);
    memcpy(&list[1], &b, sizeof(struct p));
    memset(grid, 0, sizeof grid);
    memset(&grid[1][1], 0, 2 * sizeof(short));
    memcpy(&more_ints, &ints[2], sizeof more_ints);
    sum += more_ints;
    memcpy(more, names, sizeof names);
    for (k = 0; k < 8; k++) sum = sum * 3 + copy[k];
    for (k = 0; k < 6; k++) sum += raw[k];
    sum += text[1] + text[7] + b.y[1] + list[1].in.b + list[2].x + grid[2][3] + more[1][1];
    sum += memcmp(raw, bytes, 6) == 0;
    sum += memcmp("abc", "abd", 3) < 0;
    return sum & 255;
}
