/* needs: rvcc_span */
unsigned int strspn(const char *text, const char *set)
{
    return rvcc_span(text, set, 0);
}
