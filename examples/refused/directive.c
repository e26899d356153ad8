// refused Directive 7 line 2
#define N 42
