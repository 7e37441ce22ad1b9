/* Tables of two dimensions: generations of Life on a field of 18 by 32, and a product of matrices. */
#include <stdio.h>

#define ROWS 18
#define COLUMNS 32

static unsigned char now[ROWS][COLUMNS], next[ROWS][COLUMNS];
static int a[8][8], b[8][8], c[8][8];

static int neighbours(int row, int column)
{
    return now[row - 1][column - 1] + now[row - 1][column] + now[row - 1][column + 1] + now[row][column - 1] +
           now[row][column + 1] + now[row + 1][column - 1] + now[row + 1][column] + now[row + 1][column + 1];
}

static void step(void)
{
    int row, column, n;

    for (row = 1; row < ROWS - 1; row++)
        for (column = 1; column < COLUMNS - 1; column++) {
            n = neighbours(row, column);
            next[row][column] = n == 3 || (n == 2 && now[row][column]);
        }
    for (row = 1; row < ROWS - 1; row++)
        for (column = 1; column < COLUMNS - 1; column++)
            now[row][column] = next[row][column];
}

static void show(void)
{
    int row, column;

    for (row = 1; row < ROWS - 1; row += 3) {
        for (column = 1; column < COLUMNS - 1; column++)
            putchar(now[row][column] ? '#' : '.');
        putchar('\n');
    }
}

static void multiply(void)
{
    int i, j, k, sum;

    for (i = 0; i < 8; i++)
        for (j = 0; j < 8; j++) {
            sum = 0;
            for (k = 0; k < 8; k++)
                sum += a[i][k] * b[k][j];
            c[i][j] = sum;
        }
}

int main(void)
{
    int i, j, trace = 0;

    for (i = 1; i < ROWS - 1; i++)
        for (j = 1; j < COLUMNS - 1; j++)
            now[i][j] = (i * 7 + j * 3 + i * j) % 5 < 2;
    for (i = 0; i < 5; i++)
        step();
    show();
    for (i = 0; i < 8; i++)
        for (j = 0; j < 8; j++) {
            a[i][j] = i - 2 * j;
            b[i][j] = i * j + 1;
        }
    multiply();
    for (i = 0; i < 8; i++)
        trace += c[i][i];
    putchar(trace < 0 ? '-' : '+');
    putchar('0' + (trace < 0 ? -trace : trace) % 10);
    putchar('\n');
    return trace & 255;
}
