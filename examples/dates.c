/* Dates in two bytes: a structure of bit-fields. */
#include <stdio.h>

struct date {
    unsigned day : 5;
    unsigned month : 4;
    unsigned year : 7; /* since 1980 */
};

static const struct date dates[] = {
    { 1, 8, 2 },
    { 31, 12, 19 },
    { 29, 2, 44 }
};

static void number(unsigned n)
{
    if (n > 9)
        number(n / 10);
    putchar('0' + n % 10);
}

static void show(const struct date *d)
{
    number(d->year + 1980);
    putchar('-');
    number(d->month);
    putchar('-');
    number(d->day);
    putchar('\n');
}

int main(void)
{
    unsigned i;

    for (i = 0; i < sizeof dates / sizeof dates[0]; ++i)
        show(&dates[i]);
    return sizeof(struct date);
}
