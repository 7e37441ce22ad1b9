/* The sum of what stands behind `...`, by the place behind the further arguments alone. */
#include "show.h"

static int sum(int n, ...)
{
    unsigned char *p;
    int s = 0;

    p = __va_rest;
    while (n--)
        s += *(int *) (p -= sizeof(int));
    return s;
}

/* the bytes of a call's further arguments, from the last one up */
static int bytes(int n, ...)
{
    int i, s = 0;

    for (i = 1; i <= n; i++)
        s = s * 3 + __va_rest[-i];
    return s;
}

static int same(int n, ...)
{
    return __va_rest == __va_rest && &__va_rest[-1] + 1 == __va_rest && n == 3;
}

int main(void)
{
    int __va_rest = 5;

    line(sum(3, 10, 20, 30));
    line(sum(0));
    line(bytes(6, 0x0201, 0x04030201L));
    line(same(3, 1));
    line(__va_rest);
    return sum(2, 100, -58);
}
