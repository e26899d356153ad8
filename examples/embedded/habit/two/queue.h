#ifndef QUEUE_H
#define QUEUE_H

#include <stdbool.h>
#include <stdint.h>

#define QUEUE_SIZE 8

typedef struct {
    uint16_t items[QUEUE_SIZE];
    uint8_t first, count;
} Queue;

bool queue_put(Queue *q, uint16_t item);
bool queue_take(Queue *q, uint16_t *item);

extern uint32_t queue_refused;

#endif
