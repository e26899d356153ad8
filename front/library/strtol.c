/* needs: rvcc_read_number */
/* What does not fit becomes the nearest that does. */
int strtol(const char *text, char **end, int base)
{
    char *last;
    int minus, over;
    unsigned int value = rvcc_read_number(text, &last, base, &minus, &over);
    if (end) *end = last;
    if (minus) return value > 2147483648u ? -2147483647 - 1 : -value;
    return value > 2147483647u ? 2147483647 : value;
}
