// A calculator: reads one expression a line and writes its value, or what is wrong with it. The names a to z are
// variables, which `name = expression` sets. It shows a struct that is passed by its address, functions that call each
// other, and `switch`. The status is the number of wrong lines.
#include <stdio.h>

struct Reader {
    char line[200];
    int length;
    int at;
    int failed;
};

int variables[26];

static void write_text(const char *text)
{
    while (*text) putchar(*text++);
}

static void write_number(int n)
{
    char digits[10];
    int count = 0;
    unsigned rest = n;
    if (n < 0) {
        putchar('-');
        rest = -rest;
    }
    do {
        digits[count++] = '0' + rest % 10;
        rest /= 10;
    } while (rest > 0);
    while (count > 0) putchar(digits[--count]);
}

// Reads a line, and gives 0 at the end of the input.
static int read_line(struct Reader *r)
{
    int c = getchar();
    if (c == -1) return 0;
    r->length = 0;
    r->at = 0;
    r->failed = 0;
    while (c != '\n' && c != -1) {
        if (r->length < 199) r->line[r->length++] = c;
        c = getchar();
    }
    r->line[r->length] = 0;
    return 1;
}

static void fail(struct Reader *r, const char *why)
{
    if (!r->failed) {
        write_text("error at ");
        write_number(r->at + 1);
        write_text(": ");
        write_text(why);
        putchar('\n');
    }
    r->failed = 1;
}

// The next character that is no blank.
static int peek(struct Reader *r)
{
    while (r->line[r->at] == ' ' || r->line[r->at] == '\t') r->at++;
    return r->line[r->at];
}

static int expression(struct Reader *r);

static int bracket(struct Reader *r)
{
    r->at++;
    int value = expression(r);
    if (peek(r) == ')') r->at++;
    else fail(r, "a bracket is not closed");
    return value;
}

static int factor(struct Reader *r)
{
    int c = peek(r);
    int value = 0;
    switch (c) {
    case '-':
        r->at++;
        return -factor(r);
    case '+':
        r->at++;
        return factor(r);
    case '(':
        return bracket(r);
    }
    if (c >= 'a' && c <= 'z') {
        r->at++;
        return variables[c - 'a'];
    }
    if (c < '0' || c > '9') {
        fail(r, "a number was expected");
        return 0;
    }
    while (r->line[r->at] >= '0' && r->line[r->at] <= '9') value = value * 10 + (r->line[r->at++] - '0');
    return value;
}

static int divided(struct Reader *r, int value, int other, int remainder)
{
    if (other == 0) {
        fail(r, "division by zero");
        return 0;
    }
    return remainder ? value % other : value / other;
}

static int term(struct Reader *r)
{
    int value = factor(r);
    for (;;) {
        switch (peek(r)) {
        case '*':
            r->at++;
            value *= factor(r);
            break;
        case '/':
            r->at++;
            value = divided(r, value, factor(r), 0);
            break;
        case '%':
            r->at++;
            value = divided(r, value, factor(r), 1);
            break;
        default:
            return value;
        }
    }
}

static int expression(struct Reader *r)
{
    int value = term(r);
    for (;;) {
        switch (peek(r)) {
        case '+':
            r->at++;
            value += term(r);
            break;
        case '-':
            r->at++;
            value -= term(r);
            break;
        default:
            return value;
        }
    }
}

// The variable that the line sets, or -1; the reader stands behind `=` then.
static int target(struct Reader *r)
{
    int c = peek(r);
    int start = r->at;
    if (c < 'a' || c > 'z') return -1;
    r->at++;
    if (peek(r) == '=') {
        r->at++;
        return c - 'a';
    }
    r->at = start;
    return -1;
}

int main(void)
{
    struct Reader reader;
    int failures = 0;
    while (read_line(&reader)) {
        if (peek(&reader) == 0) continue;
        int variable = target(&reader);
        int value = expression(&reader);
        if (peek(&reader) != 0) fail(&reader, "the line goes on");
        if (reader.failed) {
            failures++;
            continue;
        }
        if (variable >= 0) variables[variable] = value;
        write_number(value);
        putchar('\n');
    }
    return failures;
}
