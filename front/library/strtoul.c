/* needs: rvcc_read_number */
/* What does not fit becomes 4294967295; a minus negates modulo 2^32. */
unsigned int strtoul(const char *text, char **end, int base)
{
    char *last;
    int minus, over;
    unsigned int value = rvcc_read_number(text, &last, base, &minus, &over);
    if (end) *end = last;
    return minus && !over ? -value : value;
}
