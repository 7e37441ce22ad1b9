/* Recursion: Ackermann's function, the towers of Hanoi, queens and orders of letters. */
#include <stdio.h>

static int rows[8];
static int pegs[3];
static unsigned moves;

static unsigned ackermann(unsigned m, unsigned n)
{
    if (m == 0)
        return n + 1;
    if (n == 0)
        return ackermann(m - 1, 1);
    return ackermann(m - 1, ackermann(m, n - 1));
}

static void move(int n, int from, int to)
{
    int other = 3 - from - to;

    if (n == 0)
        return;
    move(n - 1, from, other);
    pegs[from]--;
    pegs[to]++;
    moves++;
    move(n - 1, other, to);
}

static int fits(int column, int row)
{
    int c;

    for (c = 0; c < column; c++)
        if (rows[c] == row || rows[c] - row == c - column || rows[c] - row == column - c)
            return 0;
    return 1;
}

static int queens(int column, int n)
{
    int row, found = 0;

    if (column == n)
        return 1;
    for (row = 0; row < n; row++)
        if (fits(column, row)) {
            rows[column] = row;
            found += queens(column + 1, n);
        }
    return found;
}

static unsigned orders(char *letters, int at)
{
    unsigned sum = 0;
    char *other, c;

    if (letters[at] == '\0') {
        for (other = letters; *other; other++)
            sum = sum * 3u + (unsigned char)*other;
        return sum;
    }
    for (other = letters + at; *other; other++) {
        c = letters[at];
        letters[at] = *other;
        *other = c;
        sum ^= orders(letters, at + 1);
        *other = letters[at];
        letters[at] = c;
    }
    return sum;
}

static void print(unsigned n)
{
    if (n > 9)
        print(n / 10);
    putchar('0' + (int)(n % 10));
}

int main(void)
{
    static char letters[] = "abcde";

    print(ackermann(2, 20));
    putchar(' ');
    print(ackermann(3, 2));
    putchar('\n');
    pegs[0] = 9;
    move(9, 0, 2);
    print(moves);
    putchar(' ');
    print((unsigned)pegs[2]);
    putchar('\n');
    print((unsigned)queens(0, 6));
    putchar(' ');
    print(orders(letters, 0));
    putchar('\n');
    return pegs[0] + pegs[1] + queens(0, 5);
}
