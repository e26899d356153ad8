/* needs: */
/* Writes a text and gives its length. */
int rvcc_put_text(const char *text)
{
    int count = 0;
    while (text[count]) putchar(text[count++]);
    return count;
}
