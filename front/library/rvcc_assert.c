/* needs: rvcc_put_text rvcc_put_d */
void rvcc_assert(const char *text, const char *file, int line)
{
    rvcc_put_text(file);
    putchar(':');
    rvcc_put_d(line, 0, 0, 0);
    rvcc_put_text(": assertion failed: ");
    rvcc_put_text(text);
    putchar('\n');
    exit(134);
}
