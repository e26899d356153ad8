/* needs: rvcc_span */
unsigned int strcspn(const char *text, const char *set)
{
    return rvcc_span(text, set, 1);
}
