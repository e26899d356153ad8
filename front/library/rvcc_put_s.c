/* needs: rvcc_put_text rvcc_put_blanks */
int rvcc_put_s(const char *text, int width, int left)
{
    int length = 0;
    while (text[length]) length++;
    if (width < 0) {
        width = -width;
        left = 1;
    }
    if (!left) rvcc_put_blanks(width, length);
    rvcc_put_text(text);
    if (left) rvcc_put_blanks(width, length);
    return length < width ? width : length;
}
