/* needs: */
int strcmp(const char *a, const char *b)
{
    unsigned int k = 0;
    while (a[k] && a[k] == b[k]) k++;
    return a[k] - b[k];
}
