/* needs: rvcc_span */
char *rvcc_strtok_rest;

char *strtok(char *text, const char *set)
{
    char *word = text ? text : rvcc_strtok_rest;
    if (!word) return 0;
    word += rvcc_span(word, set, 0);
    if (!*word) {
        rvcc_strtok_rest = 0;
        return 0;
    }
    rvcc_strtok_rest = word + rvcc_span(word, set, 1);
    if (*rvcc_strtok_rest) *rvcc_strtok_rest++ = 0;
    else rvcc_strtok_rest = 0;
    return word;
}
