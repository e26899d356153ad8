/* needs: rvcc_put_blanks */
int rvcc_put_c(int c, int width, int left)
{
    if (width < 0) {
        width = -width;
        left = 1;
    }
    if (!left) rvcc_put_blanks(width, 1);
    putchar(c);
    if (left) rvcc_put_blanks(width, 1);
    return width > 1 ? width : 1;
}
