/* needs: */
int rvcc_read_number_digit(int c)
{
    if ('0' <= c && c <= '9') return c - '0';
    if ('a' <= c && c <= 'z') return c - 'a' + 10;
    if ('A' <= c && c <= 'Z') return c - 'A' + 10;
    return 36;
}

/* The number that a text begins with, without its sign, and 4294967295 and `*over` where it does not fit. `*end` is
   where it ends, the begin of the text where there is no digit. */
unsigned int rvcc_read_number(const char *text, char **end, int base, int *minus, int *over)
{
    unsigned int value = 0, digit;
    *end = text;
    *over = 0;
    while (*text == ' ' || (9 <= *text && *text <= 13)) text++;
    *minus = *text == '-';
    if (*minus || *text == '+') text++;
    if ((base == 0 || base == 16) && text[0] == '0' && (text[1] == 'x' || text[1] == 'X')
            && rvcc_read_number_digit(text[2]) < 16) {
        text += 2;
        base = 16;
    }
    if (base == 0) base = *text == '0' ? 8 : 10;
    while ((digit = rvcc_read_number_digit(*text)) < base) {
        if (value > (4294967295u - digit) / base) *over = 1;
        value = value * base + digit;
        *end = ++text;
    }
    return *over ? 4294967295u : value;
}
