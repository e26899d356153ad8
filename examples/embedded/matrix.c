// Matrices of 16-bit numbers as a filter in a small device has them: a product, a transposed one, a power, and a system of
// equations modulo a prime, solved by elimination. Each result is written as its corners and a sum.
#include <stdio.h>

struct Matrix {
    unsigned short at[16][16];
    int size;
};

struct Matrix a, b, product, power;

static void put_number(unsigned int n)
{
    if (n >= 10) put_number(n / 10);
    putchar('0' + n % 10);
}

static void fill(struct Matrix *m, int size, unsigned int seed)
{
    m->size = size;
    for (int i = 0; i < size; i++)
        for (int j = 0; j < size; j++) {
            seed = seed * 1664525 + 1013904223;
            m->at[i][j] = (seed >> 16) % 65521;
        }
}

static void copy(struct Matrix *to, const struct Matrix *from)
{
    to->size = from->size;
    for (int i = 0; i < from->size; i++)
        for (int j = 0; j < from->size; j++) to->at[i][j] = from->at[i][j];
}

static void multiply(struct Matrix *to, const struct Matrix *x, const struct Matrix *y)
{
    to->size = x->size;
    for (int i = 0; i < x->size; i++)
        for (int j = 0; j < x->size; j++) {
            unsigned int sum = 0;
            for (int k = 0; k < x->size; k++) sum = (sum + (unsigned int)x->at[i][k] * y->at[k][j] % 65521) % 65521;
            to->at[i][j] = sum;
        }
}

static void transpose(struct Matrix *m)
{
    for (int i = 0; i < m->size; i++)
        for (int j = 0; j < i; j++) {
            unsigned short t = m->at[i][j];
            m->at[i][j] = m->at[j][i];
            m->at[j][i] = t;
        }
}

static unsigned int inverse(unsigned int v)
{
    unsigned int result = 1;
    for (unsigned int n = 65519; n > 0; n >>= 1) {
        if (n & 1) result = result * v % 65521;
        v = v * v % 65521;
    }
    return result;
}

// Brings m to upper triangular form and gives its determinant.
static unsigned int determinant(struct Matrix *m)
{
    unsigned int result = 1;
    for (int c = 0; c < m->size; c++) {
        unsigned int scale;
        if (m->at[c][c] == 0) return 0;
        result = result * m->at[c][c] % 65521;
        scale = inverse(m->at[c][c]);
        for (int r = c + 1; r < m->size; r++) {
            unsigned int f = m->at[r][c] * scale % 65521;
            for (int k = c; k < m->size; k++) m->at[r][k] = (m->at[r][k] + 65521 - f * m->at[c][k] % 65521) % 65521;
        }
    }
    return result;
}

static void show(const struct Matrix *m)
{
    unsigned int sum = 0;
    for (int i = 0; i < m->size; i++)
        for (int j = 0; j < m->size; j++) sum = sum * 31 + m->at[i][j];
    put_number(m->at[0][0]); putchar(' ');
    put_number(m->at[m->size - 1][m->size - 1]); putchar(' ');
    put_number(sum); putchar('\n');
}

int main(void)
{
    fill(&a, 16, 1);
    fill(&b, 16, 2);
    multiply(&product, &a, &b);
    show(&product);
    copy(&power, &a);
    for (int n = 0; n < 4; n++) {
        transpose(&power);
        multiply(&product, &power, &b);
        copy(&power, &product);
    }
    show(&power);
    put_number(determinant(&power)); putchar('\n');
    return 0;
}
