/* Points of a plane in two bytes, passed and returned by value. */
#include <stdio.h>

struct vector {
    signed char x, y;
};

static struct vector at(int x, int y)
{
    struct vector v;

    v.x = x;
    v.y = y;
    return v;
}

static struct vector plus(struct vector a, struct vector b)
{
    return at(a.x + b.x, a.y + b.y);
}

static struct vector times(struct vector a, int n)
{
    return at(a.x * n, a.y * n);
}

/* a quarter turn to the left */
static struct vector turned(struct vector a)
{
    return at(-a.y, a.x);
}

static int square(struct vector a)
{
    return a.x * a.x + a.y * a.y;
}

static void number(int n)
{
    if (n < 0) {
        putchar('-');
        n = -n;
    }
    if (n > 9)
        number(n / 10);
    putchar('0' + n % 10);
}

static void show(struct vector v)
{
    number(v.x);
    putchar(' ');
    number(v.y);
    putchar('\n');
}

int main(void)
{
    struct vector here = at(3, 4), step = at(-1, 2);
    int i;

    show(plus(here, times(step, 3)));
    for (i = 0; i < 4; ++i) {
        show(step);
        step = turned(step);
    }
    return square(plus(here, turned(here)));
}
