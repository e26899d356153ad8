#include <stddef.h>
#include <stdint.h>
struct s { char c; int n; short h[2]; };
static int find(const void *area, int wanted, int n) { const unsigned char *p = area; int k; for (k = 0; k < n; k++) if (p[k] == wanted) return k; return -1; }
static void fill(void *area, int c, int n) { char *p = (char *)area; while (n-- > 0) *p++ = (char)c; }
int main(void)
{
    uint8_t buffer[10] = { 0 };
    char *text = (char *)buffer;
    const char *s = (const char *)buffer + 1;
    void *v = buffer;
    struct s *none = NULL, one = { 1, 2, { 3, 4 } }, *o = (struct s *)(void *)&one;
    int *n = none == NULL ? (int *)0 : &none->n;
    fill(buffer + 2, 'x', 3);
    text[9] = 'q';
    if (v == NULL || n) return 1;
    if (!none && o) return find(buffer, 'q', 10) * 10 + (s[1] == 'x') + (int)offsetof(struct s, h) + o->h[1] + (v == (void *)text);
    return 0;
}
