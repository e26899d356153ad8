/* needs: rvcc_read_int */
int atoi(const char *text)
{
    return rvcc_read_int(text);
}
