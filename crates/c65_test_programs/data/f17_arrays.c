/* Arrays of arrays, and arithmetic on pointers to them. */
#include "show.h"

static int cube[3][4][2];
static char board[3][3] = { "x.o", ".x.", "o.x" };

static int sum(int (*rows)[2], int count)
{
    int total = 0, *p;

    while (count--)
        for (p = *rows; p < *(rows + 1) ? 1 : (rows++, 0); p++)
            total += *p;
    return total;
}

static int diagonal(char b[][3], char player)
{
    int i, n = 0;

    for (i = 0; i < 3; i++)
        n += b[i][i] == player;
    return n;
}

static void turn(int *matrix, int n)
{
    int i, j, t;

    for (i = 0; i < n; i++)
        for (j = 0; j < i; j++) {
            t = matrix[i * n + j];
            matrix[i * n + j] = matrix[j * n + i];
            matrix[j * n + i] = t;
        }
}

int main(void)
{
    int i, j, k;
    int (*plane)[4][2] = cube + 1;
    int *last = &cube[2][3][1];
    int square[3][3] = { 1, 2, 3, 4, 5, 6, 7, 8, 9 };
    int *rows[3];
    int **pp = rows;

    for (i = 0; i < 3; i++)
        for (j = 0; j < 4; j++)
            for (k = 0; k < 2; k++)
                cube[i][j][k] = i * 100 + j * 10 + k;
    line((*plane)[2][1]);
    line(plane[-1][3][0]);
    line(***plane);
    line(**(*(plane + 1) + 2));
    line(*last);
    line(last[-8]);
    line(last - &cube[0][0][0]);
    line(&cube[2] - &cube[0]);
    line((char *) &cube[1] - (char *) &cube[0]);
    line(sizeof cube + sizeof cube[0] + sizeof *cube[0] + sizeof **cube[0]);
    line(sum(cube[1], 4));
    line(sum(&cube[2][2], 2));
    line(diagonal(board, 'x') * 10 + diagonal(board, 'o'));
    turn(square[0], 3);
    line(square[0][1] * 100 + square[0][2] * 10 + square[1][2]);
    for (i = 0; i < 3; i++)
        rows[i] = square[2 - i];
    line(rows[0][0] * 100 + *rows[1] * 10 + pp[2][0]);
    line(*++*pp);
    line((*pp++)[1]);
    line(**pp++);
    line(pp - rows);
    line(&square[1][0] == *(square + 1));
    line(&square[0][3] - 1 == &square[0][2]);
    return 0;
}
