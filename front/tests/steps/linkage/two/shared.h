#ifndef SHARED_H
#define SHARED_H
#define SIZE 3
struct item { int weight; const char *name; };
typedef struct { int x, y; } cell;
int other(void);
void say(const struct item *what);
int weigh(struct item what);
static inline int unused(cell c) { return c.x; }
#endif
