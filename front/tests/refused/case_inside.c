// 2:48: error: a case stands in the block of its switch, not in a statement of it
int main(void) { switch (1) { case 0: if (1) { case 1: return 1; } } return 0; }
