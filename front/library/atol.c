/* needs: rvcc_read_int */
int atol(const char *text)
{
    return rvcc_read_int(text);
}
