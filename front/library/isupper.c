/* needs: */
int isupper(int c)
{
    return 'A' <= c && c <= 'Z';
}
