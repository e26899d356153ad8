/* needs: strlen strcpy strncpy strcat strncat strcmp strncmp strchr strrchr strstr strpbrk strspn strcspn strtok rvcc_put_d rvcc_put_text */
const char texts[12][12] = {"", "a", "b", "ab", "abc", "abd", "aab", "aaab", "\377", "a\377", "banana", "A b,c;d"};
char room[40];

static void number(int value)
{
    rvcc_put_d(value, 4, 0, 0);
}

static int sign(int value)
{
    return (value > 0) - (value < 0);
}

static void place(const char *text, const char *found)
{
    number(found ? found - text : -1);
}

static void show(void)
{
    putchar('[');
    for (int k = 0; k < 40; k++) putchar(room[k] ? room[k] : '.');
    putchar(']');
    putchar('\n');
}

static void fill(void)
{
    for (int k = 0; k < 40; k++) room[k] = '#';
}

static void words(const char *text, const char *set)
{
    char *word;
    strcpy(room, text);
    word = strtok(room, set);
    while (word) {
        rvcc_put_text(word);
        putchar('/');
        word = strtok(0, set);
    }
    putchar(strtok(0, set) ? '!' : '\n');
}

int main(void)
{
    for (int k = 0; k < 12; k++) {
        const char *a = texts[k];
        number(strlen(a));
        for (int c = 0; c < 4; c++) {
            place(a, strchr(a, "a\377nb"[c])); place(a, strrchr(a, "a\377nb"[c]));
        }
        place(a, strchr(a, 0)); place(a, strrchr(a, 0)); place(a, strchr(a, 'a' + 256)); place(a, strrchr(a, -1));
        for (int j = 0; j < 12; j++) {
            const char *b = texts[j];
            number(sign(strcmp(a, b)));
            for (unsigned n = 0; n < 5; n++) number(sign(strncmp(a, b, n)));
            number(sign(strncmp(a, b, 0xffffffff)));
            place(a, strstr(a, b)); place(a, strpbrk(a, b)); number(strspn(a, b)); number(strcspn(a, b));
            fill();
            number(strcpy(room, a) == room); number(strcat(room, b) == room);
            show();
            for (unsigned n = 0; n < 5; n++) {
                fill();
                number(strncpy(room, a, n) == room);
                room[20] = 0;
                strcpy(room + 20, b);
                number(strncat(room + 20, a, n) == room + 20);
                show();
            }
            words(a, b);
        }
        putchar('\n');
    }
    words("  two  words ", " ");
    words(",,", ",");
    words("a=1;b=2", ";=");
    return 0;
}
