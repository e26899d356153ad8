struct p { int x, y; };
struct line { struct p from, to; char tag[3]; };
static int length(const struct line *l) { return (l->to.x - l->from.x) * 10 + l->to.y - l->from.y + l->tag[1]; }
static int sum(const int *a, int n) { int s = 0; while (n--) s = s * 2 + *a++; return s; }
static int *table = (int[]){ 5, 6, 7 };
static struct p *origin = &(struct p){ 3, 4 };
int main(void)
{
    struct p q = (struct p){ .y = 9 };
    int k, total = 0;
    for (k = 0; k < 3; k++) {
        q = (struct p){ k, q.y + 1 };
        total += sum((int[]){ k, k + 1, 4 }, 3) + *&(int){ k };
    }
    total += length(&(struct line){ .to = { 2, 3 }, .from = q, .tag = "ab" });
    total += (&(struct p){ 1, 2 })->y + table[2] + origin->y + (int)sizeof(int[4]);
    return (total + q.x + q.y) & 255;
}
