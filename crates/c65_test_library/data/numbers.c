/* stdlib.h and errno.h: numbers in strings (C90 7.10.1), for a long of 32 bits and an int of 16. */
#include <errno.h>
#include <limits.h>
#include <stdlib.h>
#include "show.h"

/* Writes the value, how many characters were taken, and whether the range was exceeded. */
static void tail(const char *s, const char *end)
{
    putchar(' ');
    put_number(end - s);
    if (errno)
        put_text(errno == ERANGE ? " ERANGE" : " error");
    putchar('\n');
}

static void signed_number(const char *s, int base)
{
    char *end;

    errno = 0;
    put_text("strtol ");
    put_number(strtol(s, &end, base));
    tail(s, end);
}

static void unsigned_number(const char *s, int base)
{
    char *end;

    errno = 0;
    put_text("strtoul ");
    put_amount(strtoul(s, &end, base));
    tail(s, end);
}

int main(void)
{
    signed_number("2147483647", 10);
    signed_number("2147483648", 10);
    signed_number("-2147483648", 10);
    signed_number("-2147483649", 10);
    signed_number("99999999999999999999x", 10);
    signed_number("-99999999999", 10);
    signed_number(" \t\n\v\f\r+12ab", 10);
    signed_number("- 1", 10);
    signed_number("+", 10);
    signed_number("", 10);
    signed_number("x1", 10);
    signed_number("0", 0);
    signed_number("077", 0);
    signed_number("089", 0);
    signed_number("0x7fFf", 0);
    signed_number("0X10", 16);
    signed_number("0xg", 16);
    signed_number("0x", 0);
    signed_number("-0x80000000", 0);
    signed_number("0x10", 8);
    signed_number("zZ", 36);
    signed_number("12", 2);
    signed_number("-zik0zk", 36);
    signed_number("zik0zk", 36);
    unsigned_number("4294967295", 10);
    unsigned_number("4294967296", 10);
    unsigned_number("-1", 10);
    unsigned_number("-4294967296", 10);
    unsigned_number("0xffffffff", 0);
    unsigned_number("1z141z4", 36);
    unsigned_number("11111111111111111111111111111111", 2);
    unsigned_number("100000000000000000000000000000000", 2);
    unsigned_number("  037777777777 ", 0);
    show("strtol without an end", strtol("12x", NULL, 10));
    show("atol", atol("  -2147483648,"));
    show("atol of none", atol("x"));
    show("atoi", atoi("\n+32767 "));
    show("atoi least", atoi("-32768"));
    show("atoi of none", atoi("-"));
    show("abs", abs(-32767));
    show("abs of none", abs(0));
    show("labs", labs(-2147483647L));
    show("labs of more", labs(40000L));
    return 0;
}
