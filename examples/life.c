// Conway's game of life on a torus: reads a picture in rows of `.` and `#`, of at most 24 rows and 40 columns, lets ten
// generations pass, and writes the first and the last. It shows arrays of arrays, constants and `switch`. The status is
// the number of cells that are alive at the end.
#include <stdio.h>

const int generations = 10;
char cells[24][40];
char next[24][40];
int rows, columns;

static int read_picture(void)
{
    int c, i = 0, j = 0;
    while ((c = getchar()) != -1) {
        if (c == '\n') {
            if (j > 0) i++;
            j = 0;
        } else if (i < 24 && j < 40) {
            cells[i][j++] = c == '#';
            if (j > columns) columns = j;
        }
    }
    rows = i > 24 ? 24 : i;
    return rows > 0 && columns > 0;
}

static int neighbours(int i, int j)
{
    int count = 0;
    for (int a = -1; a <= 1; a++)
        for (int b = -1; b <= 1; b++)
            if (a != 0 || b != 0) count += cells[(i + a + rows) % rows][(j + b + columns) % columns];
    return count;
}

static void step(void)
{
    int i, j;
    for (i = 0; i < rows; i++)
        for (j = 0; j < columns; j++)
            switch (neighbours(i, j)) {
            case 2:
                next[i][j] = cells[i][j];
                break;
            case 3:
                next[i][j] = 1;
                break;
            default:
                next[i][j] = 0;
            }
    for (i = 0; i < rows; i++)
        for (j = 0; j < columns; j++) cells[i][j] = next[i][j];
}

static int write_picture(void)
{
    int alive = 0;
    for (int i = 0; i < rows; i++) {
        for (int j = 0; j < columns; j++) {
            putchar(cells[i][j] ? '#' : '.');
            alive += cells[i][j];
        }
        putchar('\n');
    }
    putchar('\n');
    return alive;
}

int main(void)
{
    if (!read_picture()) return 255;
    write_picture();
    for (int g = 0; g < generations; g++) step();
    return write_picture();
}
