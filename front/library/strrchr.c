/* needs: */
char *strrchr(const char *text, int c)
{
    char wanted = c, *last = 0;
    while (1) {
        if (*text == wanted) last = text;
        if (!*text) return last;
        text++;
    }
}
