/* needs: memcpy(int,int,4) memcpy(char,char,1) memmove(short,short,2) memmove(char,char,1) memmove(const char *,pointer,4)
   memset(char,char,1) memset(signed char,signed,1) memset(int,int,4) memset(char *,pointer,4) memcmp(char,char,1)
   memcmp(signed char,signed,1) rvcc_put_d */
const char letters[17] = "abcdefghijklmnop";
char bytes[16];
signed char small[4];
short halves[8];
int numbers[6], others[6];
const char *names[4];
struct pair {
    int before;
    short in[6];
    int after;
};
struct pair pair;

static void show(int is)
{
    rvcc_put_d(is, 3, 0, 0);
    putchar(' ');
    for (int k = 0; k < 16; k++) putchar(bytes[k] ? bytes[k] : '.');
    putchar('\n');
}

static int sign(int value)
{
    return (value > 0) - (value < 0);
}

int main(void)
{
    for (unsigned count = 0; count <= 8; count++) {
        for (int to = 0; to <= 8; to++) {
            for (int from = 0; from <= 8; from++) {
                rvcc_memcpy_char(bytes, letters, 16);
                show(rvcc_memmove_char(bytes + to, bytes + from, count) == bytes + to);
            }
        }
        show(rvcc_memset_char(bytes + 4, 'x', count) == bytes + 4);
        show(rvcc_memset_char(bytes, 0, count) == bytes);
        rvcc_memset_char(bytes, 511, count);
        rvcc_put_d(bytes[0], 5, 0, 0);
        show(sign(rvcc_memcmp_char(bytes, letters, count)));
    }
    for (int to = 0; to <= 3; to++) {
        for (int from = 0; from <= 3; from++) {
            for (int k = 0; k < 8; k++) halves[k] = 1000 - 300 * k;
            rvcc_memmove_short(&halves[to], &halves[from], 4 * sizeof(short));
            for (int k = 0; k < 8; k++) rvcc_put_d(halves[k], 6, 0, 0);
            putchar('\n');
        }
    }
    for (int k = 0; k < 6; k++) pair.in[k] = k;
    pair.before = pair.after = 9;
    rvcc_memmove_short(pair.in + 1, pair.in, 5 * sizeof(short));
    for (int k = 0; k < 6; k++) rvcc_put_d(pair.in[k], 6, 0, 0);
    rvcc_memmove_short(pair.in, halves, 6 * sizeof(short));
    for (int k = 0; k < 6; k++) rvcc_put_d(pair.in[k], 6, 0, 0);
    rvcc_put_d(pair.before + pair.after, 6, 0, 0);
    putchar('\n');
    for (int k = 0; k < 6; k++) numbers[k] = k * 0x12345678;
    rvcc_memcpy_int(others, numbers, sizeof(numbers));
    rvcc_memcpy_int(others + 1, numbers, 2 * sizeof(int));
    rvcc_memcpy_int(others, numbers, 0);
    rvcc_memset_int(numbers + 1, 0, 3 * sizeof(int));
    for (int k = 0; k < 6; k++) {
        rvcc_put_d(others[k], 12, 0, 0);
        rvcc_put_d(numbers[k], 12, 0, 0);
    }
    putchar('\n');
    names[0] = letters;
    names[1] = letters + 4;
    names[2] = names[3] = 0;
    rvcc_memmove_pointer(names + 1, names, 2 * sizeof names[0]);
    rvcc_put_d(*names[1] + *names[2] * 256 + !names[3], 6, 0, 0);
    rvcc_memset_pointer(names + 1, 0, sizeof names[0]);
    rvcc_put_d(!names[0] + !names[1] * 2 + !names[2] * 4, 6, 0, 0);
    rvcc_memset_signed(small, -3, 3);
    for (int k = 0; k < 4; k++) rvcc_put_d(small[k], 4, 0, 0);
    rvcc_memset_signed(small + 1, 4, 2);
    rvcc_put_d(sign(rvcc_memcmp_signed(small, small + 1, 1)), 4, 0, 0);
    rvcc_put_d(sign(rvcc_memcmp_signed(small + 1, small, 1)), 4, 0, 0);
    rvcc_put_d(sign(rvcc_memcmp_signed(small + 1, small + 2, 1)), 4, 0, 0);
    putchar('\n');
    return 0;
}
