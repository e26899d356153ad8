/* needs: rvcc_put_text */
int puts(const char *text)
{
    int count = rvcc_put_text(text);
    putchar('\n');
    return count + 1;
}
