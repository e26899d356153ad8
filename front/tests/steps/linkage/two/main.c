#include <stdio.h>
#include "shared.h"
static int count = 3;
static int step(void) { return ++count; }
extern int table[];
int total = 1;
int main(void)
{
    struct item one = {2, "main\n"};
    int k;
    for (k = 0; k < 3; k++) total += table[k] + step();
    say(&one);
    total += SIZE + weigh(one);
    k = other();
    return total + k;
}
