typedef struct stack stack;
stack *the_stack(void);
void push(stack *s, int v);
int pop(stack *s);
int *first, second = 5;
int *first = &second;
int main(void) { stack *s = the_stack(); push(s, 3); push(s, *first); return pop(s) * 10 + pop(s); }
