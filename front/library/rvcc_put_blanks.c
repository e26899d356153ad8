/* needs: */
/* Writes `width - length` blanks where that is positive. */
void rvcc_put_blanks(int width, int length)
{
    while (length++ < width) putchar(' ');
}
