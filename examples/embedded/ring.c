// A receive buffer between an interrupt and a state machine that reads commands: `+N`, `-N` and `=` work on a sum, `"TEXT"` is
// echoed, and anything else is an error. The buffer holds 63 bytes; what comes while it is full is lost and counted.
#include <stdio.h>

struct Ring {
    unsigned char data[64];
    unsigned int head;
    unsigned int tail;
    unsigned int lost;
};

struct Parser {
    int state;
    int sign;
    int number;
    int sum;
    unsigned int commands;
    unsigned int errors;
};

struct Ring rx;
struct Parser parser;

static int ring_put(struct Ring *r, unsigned char byte)
{
    unsigned int next = (r->head + 1) % 64;
    if (next == r->tail) {
        r->lost++;
        return 0;
    }
    r->data[r->head] = byte;
    r->head = next;
    return 1;
}

static int ring_get(struct Ring *r)
{
    int byte;
    if (r->head == r->tail) return -1;
    byte = r->data[r->tail];
    r->tail = (r->tail + 1) % 64;
    return byte;
}

static void put_number(int n)
{
    unsigned int rest = n < 0 ? -n : n;
    char digits[10];
    int count = 0;
    if (n < 0) putchar('-');
    do {
        digits[count++] = '0' + rest % 10;
        rest /= 10;
    } while (rest > 0);
    while (count > 0) putchar(digits[--count]);
}

// States: 0 between commands, 1 in a number, 2 in a text, 3 after an error until the line ends.
static void step(struct Parser *p, int byte)
{
    switch (p->state) {
    case 1:
        if (byte >= '0' && byte <= '9') {
            p->number = p->number * 10 + (byte - '0');
            return;
        }
        p->sum += p->sign * p->number;
        p->state = 0;
        break;
    case 2:
        if (byte == '"') p->state = 0;
        else putchar(byte);
        return;
    case 3:
        if (byte == '\n') p->state = 0;
        return;
    }
    switch (byte) {
    case ' ': case '\n': return;
    case '+': case '-':
        p->state = 1;
        p->sign = byte == '-' ? -1 : 1;
        p->number = 0;
        break;
    case '=':
        put_number(p->sum);
        putchar('\n');
        break;
    case '"': p->state = 2; break;
    default:
        p->errors++;
        p->state = 3;
        return;
    }
    p->commands++;
}

int main(void)
{
    int byte = 0, at_end = 0;
    for (unsigned int tick = 0; !at_end || rx.head != rx.tail; tick++) {
        // The line sends bursts of up to 40 bytes; the main loop takes at most 29 of a burst before the next.
        for (unsigned int k = 0; k < 20 + tick * 7 % 21 && !at_end; k++) {
            byte = getchar();
            if (byte == -1) at_end = 1;
            else ring_put(&rx, byte);
        }
        for (int k = 0; k < 29 && (byte = ring_get(&rx)) != -1; k++) step(&parser, byte);
    }
    put_number(parser.commands); putchar(' ');
    put_number(parser.errors); putchar(' ');
    put_number(rx.lost); putchar('\n');
    return 0;
}
