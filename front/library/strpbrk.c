/* needs: rvcc_span */
char *strpbrk(const char *text, const char *set)
{
    text += rvcc_span(text, set, 1);
    return *text ? text : 0;
}
