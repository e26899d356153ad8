// Matrices of 16-bit numbers as a filter in a small device has them: a product, a transposed one, a power, and a system of
// equations modulo a prime, solved by elimination. Each result is written as its corners and a sum.
#include <stdint.h>
#include <stdio.h>

#define SIZE    16
#define PRIME   65521u

typedef struct {
    uint16_t at[SIZE][SIZE];
    int size;
} Matrix;

static Matrix a, b, product, power;

static void fill(Matrix *m, int size, uint32_t seed)
{
    m->size = size;
    for (int i = 0; i < size; i++)
        for (int j = 0; j < size; j++) {
            seed = seed * 1664525 + 1013904223;
            m->at[i][j] = (seed >> 16) % PRIME;
        }
}

static void multiply(Matrix *to, const Matrix *x, const Matrix *y)
{
    to->size = x->size;
    for (int i = 0; i < x->size; i++)
        for (int j = 0; j < x->size; j++) {
            uint32_t sum = 0;
            for (int k = 0; k < x->size; k++) sum = (sum + (uint32_t)x->at[i][k] * y->at[k][j] % PRIME) % PRIME;
            to->at[i][j] = sum;
        }
}

static void transpose(Matrix *m)
{
    for (int i = 0; i < m->size; i++)
        for (int j = 0; j < i; j++) {
            uint16_t t = m->at[i][j];
            m->at[i][j] = m->at[j][i];
            m->at[j][i] = t;
        }
}

static uint32_t inverse(uint32_t v)
{
    uint32_t result = 1;
    for (uint32_t n = PRIME - 2; n > 0; n >>= 1) {
        if (n & 1) result = result * v % PRIME;
        v = v * v % PRIME;
    }
    return result;
}

// Brings m to upper triangular form and gives its determinant.
static uint32_t determinant(Matrix *m)
{
    uint32_t result = 1;
    for (int c = 0; c < m->size; c++) {
        uint32_t scale;
        if (m->at[c][c] == 0) return 0;
        result = result * m->at[c][c] % PRIME;
        scale = inverse(m->at[c][c]);
        for (int r = c + 1; r < m->size; r++) {
            uint32_t f = m->at[r][c] * scale % PRIME;
            for (int k = c; k < m->size; k++) m->at[r][k] = (m->at[r][k] + PRIME - f * m->at[c][k] % PRIME) % PRIME;
        }
    }
    return result;
}

static void show(const Matrix *m)
{
    uint32_t sum = 0;
    for (int i = 0; i < m->size; i++)
        for (int j = 0; j < m->size; j++) sum = sum * 31 + m->at[i][j];
    printf("%u %u %u\n", m->at[0][0], m->at[m->size - 1][m->size - 1], sum);
}

int main(void)
{
    fill(&a, SIZE, 1);
    fill(&b, SIZE, 2);
    multiply(&product, &a, &b);
    show(&product);
    power = a;
    for (int n = 0; n < 4; n++) {
        transpose(&power);
        multiply(&product, &power, &b);
        power = product;
    }
    show(&power);
    printf("%u\n", determinant(&power));
    return 0;
}
