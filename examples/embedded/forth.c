// A small Forth. Words: + - * / mod < = dup drop swap over . cr, `: NAME .. ;`, if else then, begin until. A line is read, its
// words are compiled to cells, and run. `ok` follows each line, `NAME ?` a word that is unknown.
#include <stdio.h>

char names[64][12], word[12];
int entries[64], words = 20, code[1024], here, latest, stack[64], depth, calls[32], ends, last;

const char builtins[20][12] = {"+", "-", "*", "/", "mod", "<", "=", "dup", "drop", "swap", "over", ".", "cr", ":", ";", "if",
    "else", "then", "begin", "until"};

static int read_word(void)
{
    int n = 0;
    if (last == '\n' || last == -1) return 0;
    do last = getchar(); while (last == ' ');
    while (last > ' ') {
        if (n < 11) word[n++] = last;
        last = getchar();
    }
    word[n] = 0;
    return n;
}

static int same(const char *a, const char *b)
{
    while (*a && *a == *b) a++, b++;
    return *a == *b;
}

static void put_number(int n)
{
    if (n < 0) putchar('-');
    n = n < 0 ? -n : n;
    if (n >= 10) put_number(n / 10);
    putchar('0' + n % 10);
}

static void push(int v)
{
    if (depth < 64) stack[depth++] = v;
}

static int pop(void)
{
    return depth > 0 ? stack[--depth] : 0;
}

static void emit(int op, int value)
{
    code[here++] = op;
    code[here++] = value;
}

// Operations 0 to 12 are the first words; 20 pushes a number, 21 jumps, 22 jumps where 0 is popped, 23 calls, 24 returns.
static void run(int pc)
{
    int level = 0, a, b;
    while (1) {
        int op = code[pc], value = code[pc + 1];
        pc += 2;
        switch (op) {
        case 20: push(value); continue;
        case 21: pc = value; continue;
        case 22: if (!pop()) pc = value; continue;
        case 23: if (level == 32) return; calls[level++] = pc; pc = value; continue;
        case 24: if (level == 0) return; pc = calls[--level]; continue;
        case 12: putchar('\n'); continue;
        }
        a = pop();
        switch (op) {
        case 7: push(a); push(a); continue;
        case 8: continue;
        case 11: put_number(a); putchar(' '); continue;
        }
        b = pop();
        switch (op) {
        case 0: push(b + a); break;
        case 1: push(b - a); break;
        case 2: push(b * a); break;
        case 3: push(a ? b / a : 0); break;
        case 4: push(a ? b % a : 0); break;
        case 5: push(b < a ? -1 : 0); break;
        case 6: push(b == a ? -1 : 0); break;
        case 9: push(a); push(b); break;
        case 10: push(b); push(a); push(b); break;
        }
    }
}

static void compile(int w)
{
    switch (w) {
    case 13:
        read_word();
        for (int k = 0; k < 12; k++) names[words][k] = word[k];
        latest = entries[words++] = here;
        break;
    case 14: emit(24, 0); latest = here; break;
    case 15: emit(22, 0); push(here - 1); break;
    case 16: emit(21, 0); code[pop()] = here; push(here - 1); break;
    case 17: code[pop()] = here; break;
    case 18: push(here); break;
    case 19: emit(22, pop()); break;
    default: if (w < 13) emit(w, 0); else emit(23, entries[w]);
    }
}

int main(void)
{
    for (int w = 0; w < 20; w++)
        for (int k = 0; k < 12; k++) names[w][k] = builtins[w][k];
    while (last != -1) {
        last = 0;
        latest = here;
        while (read_word()) {
            int w = words - 1, value = 0, k = 0;
            while (w >= 0 && !same(names[w], word)) w--;
            while (word[k] >= '0' && word[k] <= '9') value = value * 10 + word[k++] - '0';
            if (w >= 0) compile(w);
            else if (!word[k]) emit(20, value);
            else for (ends = 0; word[ends] || (putchar(' '), putchar('?'), putchar('\n'), 0); ends++) putchar(word[ends]);
        }
        emit(24, 0);
        here = latest;
        run(here);
        if (last != -1) putchar('o'), putchar('k'), putchar('\n');
    }
    return 0;
}
