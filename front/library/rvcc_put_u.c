/* needs: rvcc_put_number */
int rvcc_put_u(unsigned int value, int width, int zero, int left)
{
    return rvcc_put_number(value, 10, "0123456789", 0, width, zero, left);
}
