/* needs: */
int ispunct(int c)
{
    return 32 < c && c < 127 && !(('a' <= c && c <= 'z') || ('A' <= c && c <= 'Z') || ('0' <= c && c <= '9'));
}
