/* needs: rvcc_put_number */
int rvcc_put_X(unsigned int value, int width, int zero, int left)
{
    return rvcc_put_number(value, 16, "0123456789ABCDEF", 0, width, zero, left);
}
