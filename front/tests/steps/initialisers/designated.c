struct in { int a, b; char name[4]; };
struct out { struct in first; int n[3]; struct in last[2]; };
struct out g = { .last[1].b = 5, .n = { [1] = 7, 8 }, .first = { .name = "abc", .a = 1 } };
int flat[2][3] = { 1, 2, 3, 4 };
int open[] = { [5] = 1, 2, [1] = 9, };
struct in list[] = { 1, 2, "xy", 3, 4, { 'p', 'q' }, [3].b = 6, "end" };
char text[] = { "braced" }, *words[] = { "one", "two" };
struct out h = { { 1, 2, "a" }, 3, 4, 5, 6, 7, "b" };
int scalar = { 4 };
int twice[3] = { [0] = 1, [0] = 2, [2] = 3 };
int main(void)
{
    struct out l = { .first.b = g.n[1], .first.a = 2, .last = { [0] = { 1, 2 }, 3 } };
    int k, sum = 0, dims[][2] = { { 1 }, { [1] = 2 }, 3, 4 };
    short cells[4] = { [2] = 1 };
    for (k = 0; k < 7; k++) sum = sum * 3 + open[k];
    sum += g.last[1].b + g.n[0] * 100 + g.n[1] * 10 + g.n[2] + g.first.a + g.first.name[2] + g.first.b;
    for (k = 0; k < 3; k++) sum += flat[0][k] * 2 + flat[1][k] + twice[k] * k;
    sum += sizeof list + list[3].b * list[1].name[1] + list[3].name[2] + sizeof text + words[1][0] + sizeof dims;
    sum += l.first.a * l.first.b + l.last[0].b + l.last[1].a + l.last[1].b + h.n[2] * h.last[0].b + h.last[0].name[0] + scalar;
    sum += dims[0][1] + dims[1][1] * 3 + dims[2][0] + dims[2][1] + cells[2] + cells[3];
    return sum & 255;
}
