// A small Forth. Words: + - * / mod < = dup drop swap over . cr, `: NAME .. ;`, if else then, begin until. A line is read, its
// words are compiled to cells, and run. `ok` follows each line, `NAME ?` a word that is unknown.
#include <stdio.h>
#include <stdint.h>
#include <string.h>
#include <ctype.h>

#define NAME_SIZE   12
#define WORDS       64
#define CELLS       1024
#define DEPTH       64

enum {
    ADD, SUB, MUL, DIV, MOD, LESS, EQUAL, DUP, DROP, SWAP, OVER, DOT, CR,
    COLON, SEMICOLON, IF, ELSE, THEN, BEGIN, UNTIL,
    PUSH, JUMP, BRANCH, CALL, RETURN
};

typedef int32_t cell;

static char names[WORDS][NAME_SIZE], word[NAME_SIZE];
static int entries[WORDS], words = PUSH, here, latest, depth, calls[32], last;
static cell code[CELLS], stack[DEPTH];

static const char builtins[PUSH][NAME_SIZE] = {"+", "-", "*", "/", "mod", "<", "=", "dup", "drop", "swap", "over", ".", "cr", ":", ";", "if",
    "else", "then", "begin", "until"};

static int read_word(void)
{
    int n = 0;
    if (last == '\n' || last == EOF) return 0;
    do last = getchar(); while (last == ' ');
    while (last > ' ') {
        if (n < NAME_SIZE - 1) word[n++] = last;
        last = getchar();
    }
    word[n] = 0;
    return n;
}

static void push(cell v)
{
    if (depth < DEPTH) stack[depth++] = v;
}

static cell pop(void)
{
    return depth > 0 ? stack[--depth] : 0;
}

static void emit(int op, int value)
{
    code[here++] = op;
    code[here++] = value;
}

static void run(int pc)
{
    int level = 0, a, b;
    while (1) {
        int op = code[pc], value = code[pc + 1];
        pc += 2;
        switch (op) {
        case PUSH: push(value); continue;
        case JUMP: pc = value; continue;
        case BRANCH: if (!pop()) pc = value; continue;
        case CALL: if (level == 32) return; calls[level++] = pc; pc = value; continue;
        case RETURN: if (level == 0) return; pc = calls[--level]; continue;
        case CR: putchar('\n'); continue;
        }
        a = pop();
        switch (op) {
        case DUP: push(a); push(a); continue;
        case DROP: continue;
        case DOT: printf("%d ", a); continue;
        }
        b = pop();
        switch (op) {
        case ADD: push(b + a); break;
        case SUB: push(b - a); break;
        case MUL: push(b * a); break;
        case DIV: push(a ? b / a : 0); break;
        case MOD: push(a ? b % a : 0); break;
        case LESS: push(b < a ? -1 : 0); break;
        case EQUAL: push(b == a ? -1 : 0); break;
        case SWAP: push(a); push(b); break;
        case OVER: push(b); push(a); push(b); break;
        }
    }
}

static void compile(int w)
{
    switch (w) {
    case COLON:
        read_word();
        memcpy(names[words], word, sizeof word);
        latest = entries[words++] = here;
        break;
    case SEMICOLON: emit(RETURN, 0); latest = here; break;
    case IF: emit(BRANCH, 0); push(here - 1); break;
    case ELSE: emit(JUMP, 0); code[pop()] = here; push(here - 1); break;
    case THEN: code[pop()] = here; break;
    case BEGIN: push(here); break;
    case UNTIL: emit(BRANCH, pop()); break;
    default: if (w < COLON) emit(w, 0); else emit(CALL, entries[w]);
    }
}

int main(void)
{
    memcpy(names, builtins, sizeof builtins);
    while (last != EOF) {
        last = 0;
        latest = here;
        while (read_word()) {
            int w = words - 1, value = 0, k = 0;
            while (w >= 0 && strcmp(names[w], word) != 0) w--;
            while (isdigit(word[k])) value = value * 10 + word[k++] - '0';
            if (w >= 0) compile(w);
            else if (!word[k]) emit(PUSH, value);
            else printf("%s ?\n", word);
        }
        emit(RETURN, 0);
        here = latest;
        run(here);
        if (last != EOF) puts("ok");
    }
    return 0;
}
