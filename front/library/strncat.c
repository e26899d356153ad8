/* needs: */
char *strncat(char *to, const char *from, unsigned int count)
{
    char *end = to;
    unsigned int k = 0;
    while (*end) end++;
    while (k < count && from[k]) {
        end[k] = from[k];
        k++;
    }
    end[k] = 0;
    return to;
}
