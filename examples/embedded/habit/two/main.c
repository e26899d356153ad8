// Readings wait in a queue, and their sum is written; it stands in a file of its own with its header.
#include <stdio.h>
#include "queue.h"

static unsigned wrap(unsigned n)
{
    return n % 1000;
}

int main(void)
{
    static Queue queue;
    uint16_t reading = 0;
    uint32_t sum = 0;

    for (unsigned k = 0; k < 500; k++) {
        queue_put(&queue, wrap(k * k));
        if (k % 4 != 1 && queue_take(&queue, &reading)) sum += reading;
    }
    while (queue_take(&queue, &reading)) sum += reading;
    printf("sum %lu, refused %lu\n", (unsigned long)sum, (unsigned long)queue_refused);
    return 0;
}
