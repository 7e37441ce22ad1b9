/* Writes numbers, for the programs beside it. */
#include <stdio.h>

static void num(int n)
{
    if (n < 0) {
        putchar(45);
        if (n < -9)
            num(-(n / 10));
        putchar(48 - n % 10);
        return;
    }
    if (n > 9)
        num(n / 10);
    putchar(48 + n % 10);
}

static void line(int n)
{
    num(n);
    putchar(10);
}
