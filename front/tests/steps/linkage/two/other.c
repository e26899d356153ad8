#include <stdio.h>
#include "shared.h"
static int count = 100;
static void step(void) { count += 5; }
int table[3] = {10, 20, 30};
enum { total_of = 3 };
int other(void) { extern int total; step(); total += total_of; return count - total; }
void say(const struct item *what) { const char *s = what->name; while (*s) putchar(*s++); }
int weigh(struct item what) { return what.weight * 2; }
