/* needs: */
int isspace(int c)
{
    return c == ' ' || (9 <= c && c <= 13);
}
