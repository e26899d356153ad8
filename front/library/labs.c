/* needs: */
int labs(int n)
{
    return n < 0 ? -n : n;
}
