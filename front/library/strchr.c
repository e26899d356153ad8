/* needs: */
char *strchr(const char *text, int c)
{
    char wanted = c;
    while (*text != wanted) {
        if (!*text) return 0;
        text++;
    }
    return text;
}
