/* needs: */
char *strcpy(char *to, const char *from)
{
    unsigned int k = 0;
    while ((to[k] = from[k])) k++;
    return to;
}
