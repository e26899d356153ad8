/* needs: rvcc_put_number */
int rvcc_put_o(unsigned int value, int width, int zero, int left)
{
    return rvcc_put_number(value, 8, "01234567", 0, width, zero, left);
}
