// The queens puzzle: for each digit of its input counts the ways to place so many queens on such a board with none under
// attack, and draws the first way. It shows a search by recursion. The status is the last count.
#include <stdio.h>

int place[9];
int ways;

static int attacked(int row, int column)
{
    for (int r = 0; r < row; r++) {
        int d = place[r] - column;
        if (d == 0 || d == row - r || d == r - row) return 1;
    }
    return 0;
}

static void draw(int n)
{
    for (int r = 0; r < n; r++)
        for (int c = 0; c < n; c++) {
            putchar(place[r] == c ? 'Q' : '.');
            putchar(c + 1 < n ? ' ' : '\n');
        }
}

static void solve(int row, int n)
{
    if (row == n) {
        if (ways++ == 0) draw(n);
        return;
    }
    for (int c = 0; c < n; c++) {
        if (attacked(row, c)) continue;
        place[row] = c;
        solve(row + 1, n);
    }
}

static void write_number(int n)
{
    if (n >= 10) write_number(n / 10);
    putchar('0' + n % 10);
}

int main(void)
{
    int c;
    while ((c = getchar()) != -1) {
        if (c < '1' || c > '9') continue;
        ways = 0;
        solve(0, c - '0');
        write_number(ways);
        putchar('\n');
    }
    return ways;
}
