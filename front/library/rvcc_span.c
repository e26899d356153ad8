/* needs: */
/* How many bytes a text begins with that are in a set, or, with `others`, that are not. */
unsigned int rvcc_span(const char *text, const char *set, int others)
{
    unsigned int count = 0;
    while (text[count]) {
        unsigned int k = 0;
        while (set[k] && set[k] != text[count]) k++;
        if (!set[k] != others) break;
        count++;
    }
    return count;
}
