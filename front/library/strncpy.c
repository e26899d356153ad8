/* needs: */
char *strncpy(char *to, const char *from, unsigned int count)
{
    unsigned int k = 0;
    while (k < count && from[k]) {
        to[k] = from[k];
        k++;
    }
    while (k < count) to[k++] = 0;
    return to;
}
