/* needs: rvcc_put_number */
int rvcc_put_d(int value, int width, int zero, int left)
{
    return rvcc_put_number(value < 0 ? -value : value, 10, "0123456789", value < 0, width, zero, left);
}
