/* needs: */
/* The decimal number that a text begins with, 0 without one. What does not fit into an `int` wraps. */
int rvcc_read_int(const char *text)
{
    int value = 0, minus;
    while (*text == ' ' || (9 <= *text && *text <= 13)) text++;
    minus = *text == '-';
    if (minus || *text == '+') text++;
    while ('0' <= *text && *text <= '9') value = value * 10 + (*text++ - '0');
    return minus ? -value : value;
}
