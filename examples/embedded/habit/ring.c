// A receive buffer between an interrupt and a state machine that reads commands: `+N`, `-N` and `=` work on a sum, `"TEXT"` is
// echoed, and anything else is an error. The buffer holds 63 bytes; what comes while it is full is lost and counted.
#include <stdbool.h>
#include <stdint.h>
#include <stdio.h>

#define RX_SIZE     64u
#define RX_MASK     (RX_SIZE - 1u)

enum state { IDLE, NUMBER, TEXT, SKIP };

typedef struct {
    uint8_t data[RX_SIZE];
    uint32_t head;
    uint32_t tail;
    uint32_t lost;
} Ring;

typedef struct {
    enum state state;
    int sign;
    int number;
    int sum;
    uint32_t commands;
    uint32_t errors;
} Parser;

static volatile Ring rx;
static Parser parser = { .state = IDLE, .sign = 1 };

static bool ring_put(volatile Ring *r, uint8_t byte)
{
    uint32_t next = (r->head + 1) & RX_MASK;
    if (next == r->tail) {
        r->lost++;
        return false;
    }
    r->data[r->head] = byte;
    r->head = next;
    return true;
}

static int ring_get(volatile Ring *r)
{
    int byte;
    if (r->head == r->tail) return EOF;
    byte = r->data[r->tail];
    r->tail = (r->tail + 1) & RX_MASK;
    return byte;
}

static void step(Parser *p, int byte)
{
    switch (p->state) {
    case NUMBER:
        if (byte >= '0' && byte <= '9') {
            p->number = p->number * 10 + (byte - '0');
            return;
        }
        p->sum += p->sign * p->number;
        p->state = IDLE;
        break;
    case TEXT:
        if (byte == '"') p->state = IDLE;
        else putchar(byte);
        return;
    case SKIP:
        if (byte == '\n') p->state = IDLE;
        return;
    default:
        break;
    }
    switch (byte) {
    case ' ': case '\n': return;
    case '+': case '-':
        p->state = NUMBER;
        p->sign = byte == '-' ? -1 : 1;
        p->number = 0;
        break;
    case '=':
        printf("%d\n", p->sum);
        break;
    case '"': p->state = TEXT; break;
    default:
        p->errors++;
        p->state = SKIP;
        return;
    }
    p->commands++;
}

int main(void)
{
    int byte = 0;
    bool at_end = false;
    for (uint32_t tick = 0; !at_end || rx.head != rx.tail; tick++) {
        // The line sends bursts of up to 40 bytes; the main loop takes at most 29 of a burst before the next.
        for (uint32_t k = 0; k < 20 + tick * 7 % 21 && !at_end; k++) {
            byte = getchar();
            if (byte == EOF) at_end = true;
            else ring_put(&rx, byte);
        }
        for (int k = 0; k < 29 && (byte = ring_get(&rx)) != EOF; k++) step(&parser, byte);
    }
    printf("%u %u %u\n", parser.commands, parser.errors, rx.lost);
    return 0;
}
