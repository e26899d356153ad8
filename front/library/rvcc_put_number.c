/* needs: rvcc_put_blanks */
/* Writes a number after a minus or none, in a field of at least `width` characters, and gives how many there are. A field of negative
   width is filled on the right, as one with `left` is, and with `zero` one that is filled on the left gets zeros. */
int rvcc_put_number(unsigned int value, int base, const char *digits, int minus, int width, int zero, int left)
{
    char reversed[11];
    int count = 0, length;
    do {
        reversed[count++] = digits[value % base];
        value /= base;
    } while (value != 0);
    length = count + minus;
    if (width < 0) {
        width = -width;
        left = 1;
    }
    if (!left && !zero) rvcc_put_blanks(width, length);
    if (minus) putchar('-');
    if (!left && zero) {
        int filled = length;
        while (filled++ < width) putchar('0');
    }
    while (count > 0) putchar(reversed[--count]);
    if (left) rvcc_put_blanks(width, length);
    return length < width ? width : length;
}
