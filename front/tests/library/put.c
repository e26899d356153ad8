/* needs: puts rvcc_put_text rvcc_put_d rvcc_put_u rvcc_put_x rvcc_put_X rvcc_put_o rvcc_put_c rvcc_put_s */
static void total(int count)
{
    putchar('|');
    rvcc_put_d(count, 0, 0, 0);
    putchar('\n');
}

static void all(int value)
{
    const int widths[9] = {0, 1, 2, 5, 11, 12, 15, -6, -13};
    for (int k = 0; k < 9; k++) {
        for (int flags = 0; flags < 4; flags++) {
            int zero = flags & 1, left = flags >> 1;
            total(rvcc_put_d(value, widths[k], zero, left));
            total(rvcc_put_u(value, widths[k], zero, left));
            total(rvcc_put_x(value, widths[k], zero, left));
            total(rvcc_put_X(value, widths[k], zero, left));
            total(rvcc_put_o(value, widths[k], zero, left));
        }
    }
}

int main(void)
{
    const int values[12] = {0, 1, -1, 9, 10, -10, 12345, -12345, 0xabcdef, 2147483647, -2147483647, 0x80000000};
    const int widths[7] = {0, 1, 2, 3, 8, -1, -5};
    for (int k = 0; k < 12; k++) all(values[k]);
    for (int k = 0; k < 7; k++) {
        for (int left = 0; left < 2; left++) {
            total(rvcc_put_c('x', widths[k], left));
            total(rvcc_put_c(0x1ff, widths[k], left));
            total(rvcc_put_c(0, widths[k], left));
            total(rvcc_put_s("", widths[k], left));
            total(rvcc_put_s("a", widths[k], left));
            total(rvcc_put_s("ab\xff", widths[k], left));
            total(rvcc_put_s("long text", widths[k], left));
        }
    }
    total(rvcc_put_text(""));
    total(rvcc_put_text("\001\377%d\n"));
    total(puts(""));
    total(puts("a line"));
    return 0;
}
