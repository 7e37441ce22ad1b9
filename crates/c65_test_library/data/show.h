/* What the tests write their values with. */
#include <stdio.h>

static void put_text(const char *s)
{
    while (*s)
        putchar(*s++);
}

static void put_amount(unsigned long n)
{
    if (n > 9)
        put_amount(n / 10);
    putchar('0' + (int)(n % 10));
}

static void put_number(long n)
{
    if (n < 0) {
        putchar('-');
        put_amount(-(unsigned long)n);
    } else
        put_amount(n);
}

static void show(const char *name, long n)
{
    put_text(name);
    putchar(' ');
    put_number(n);
    putchar('\n');
}

/* A string in brackets, or a dash for none. */
static void show_text(const char *name, const char *s)
{
    put_text(name);
    putchar(' ');
    if (s) {
        putchar('[');
        put_text(s);
        putchar(']');
    } else
        putchar('-');
    putchar('\n');
}

static int sign(int n)
{
    return (n > 0) - (n < 0);
}
