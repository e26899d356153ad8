/* needs: */
int strncmp(const char *a, const char *b, unsigned int count)
{
    unsigned int k = 0;
    while (k < count && a[k] && a[k] == b[k]) k++;
    return k < count ? a[k] - b[k] : 0;
}
