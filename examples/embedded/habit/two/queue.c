#include "queue.h"

uint32_t queue_refused;

static uint8_t wrap(unsigned n)
{
    return n % QUEUE_SIZE;
}

bool queue_put(Queue *q, uint16_t item)
{
    if (q->count == QUEUE_SIZE) {
        queue_refused++;
        return false;
    }
    q->items[wrap(q->first + q->count++)] = item;
    return true;
}

bool queue_take(Queue *q, uint16_t *item)
{
    if (q->count == 0) return false;
    *item = q->items[q->first];
    q->first = wrap(q->first + 1);
    q->count--;
    return true;
}
