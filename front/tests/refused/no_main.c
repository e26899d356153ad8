// 2:26: error: NoMain: no `main` is defined as `int main(void)`: the end of the source docs/LANGUAGE.md, Names
static int other(void) { return 0; }
