struct stack { int top; int cells[8]; };
typedef struct stack stack;
static stack one;
stack *the_stack(void) { return &one; }
void push(stack *s, int v) { s->cells[s->top++] = v; }
int pop(stack *s) { return s->cells[--s->top]; }
