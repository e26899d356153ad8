// A filter: copies its input with a number before each line, and writes at the end how many lines, words and bytes there
// were, and the longest word. It shows input and output byte by byte, strings and arrays of counts.
#include <stdio.h>

struct Counts {
    int lines;
    int words;
    int bytes;
};

char word[40];
char longest[40];

static void write_text(const char *text)
{
    while (*text) putchar(*text++);
}

static void write_number(int n)
{
    if (n >= 10) write_number(n / 10);
    putchar('0' + n % 10);
}

static int length(const char *text)
{
    int n = 0;
    while (text[n]) n++;
    return n;
}

static int is_blank(int c) { return c == ' ' || c == '\n' || c == '\t' || c == -1; }

// Ends a word of so many letters, of which the first 39 were kept.
static void end_word(int letters)
{
    word[letters < 39 ? letters : 39] = 0;
    if (length(word) > length(longest)) {
        for (int i = 0; i < 40; i++) longest[i] = word[i];
    }
}

int main(void)
{
    struct Counts counts = {0};
    int letters = 0, at_start = 1, c;
    do {
        c = getchar();
        if (is_blank(c)) {
            if (letters > 0) {
                end_word(letters);
                counts.words++;
            }
            letters = 0;
        } else {
            if (letters < 39) word[letters] = c;
            letters++;
        }
        if (c != -1) {
            if (at_start) {
                write_number(counts.lines + 1);
                write_text(": ");
            }
            putchar(c);
            counts.bytes++;
            at_start = c == '\n';
            if (at_start) counts.lines++;
        }
    } while (c != -1);
    if (!at_start) putchar('\n');
    write_number(counts.lines);
    putchar(' ');
    write_number(counts.words);
    putchar(' ');
    write_number(counts.bytes);
    putchar(' ');
    write_text(longest);
    putchar('\n');
    return 0;
}
