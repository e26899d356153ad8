// Writes the numbers from 1 to 12 with their squares. It shows functions, an array of characters and loops.
#include <stdio.h>
#include <stdlib.h>

// Writes a number that is not negative: its digits go into an array, the last one first.
static void number(int n)
{
    char digits[10];
    int count = 0;
    do {
        digits[count] = '0' + n % 10;
        n = n / 10;
        count++;
    } while (n > 0);
    while (count > 0) {
        count--;
        putchar(digits[count]);
    }
}

static int square(int n) { return n * n; }

int main(void)
{
    int i;
    for (i = 1; i <= 12; i++) {
        number(i);
        putchar(' ');
        number(square(i));
        putchar('\n');
    }
    return 0;
}
