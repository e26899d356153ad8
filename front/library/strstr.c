/* needs: */
char *strstr(const char *text, const char *part)
{
    while (1) {
        unsigned int k = 0;
        while (part[k] && text[k] == part[k]) k++;
        if (!part[k]) return text;
        if (!*text) return 0;
        text++;
    }
}
