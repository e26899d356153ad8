#include <stdio.h>
#define LONG_ONE(a, b) \
    do { \
        putchar(a); putchar(b); \
    } while (0)
int main(void)
{
    // a comment that goes on \
    putchar('x');
    const char *s = "one\
two\x41" "1\0602" "??/n";
    int i;
    LONG_ONE('<', '>');
    for (i = 0; s[i]; i++) pu\
tchar(s[i]);
    putchar(10);
    return i;
}
