// refused NoMain 41 line 4
// There is no `main`; this is told at the end of the source.
int other(void) { return 0; }
