/* Numbers in strings: strtol and strtoul. */
#include <ctype.h>
#include <errno.h>
#include <limits.h>
#include <stdlib.h>

struct number {
    unsigned long amount;
    char is_negative;
    char is_too_large; /* the amount is above ULONG_MAX */
};

/* The value of a digit or a letter; 36 of another character. */
static int digit(int c)
{
    if (isdigit(c))
        return c - '0';
    return isalpha(c) ? tolower(c) - 'a' + 10 : 36;
}

/* Adds digits to a number, and answers what stands behind them. */
static const char *read_digits(const char *s, int base, struct number *number)
{
    unsigned long most = ULONG_MAX / base;
    int last = (int)(ULONG_MAX % base);
    int next;

    for (; (next = digit((unsigned char)*s)) < base; ++s)
        if (number->amount < most || (number->amount == most && next <= last))
            number->amount = number->amount * base + next;
        else
            number->is_too_large = 1;
    return s;
}

/* Does `0x` and a hexadecimal digit stand here? */
static int has_prefix(const char *s)
{
    return s[0] == '0' && (s[1] == 'x' || s[1] == 'X') && isxdigit((unsigned char)s[2]);
}

static void read_number(const char *s, char **end, int base, struct number *number)
{
    const char *start = s;

    number->amount = 0;
    number->is_too_large = 0;
    while (isspace((unsigned char)*s))
        ++s;
    number->is_negative = *s == '-';
    if (*s == '-' || *s == '+')
        ++s;
    if ((base == 0 || base == 16) && has_prefix(s)) {
        base = 16;
        s += 2;
    } else if (base == 0)
        base = *s == '0' ? 8 : 10;
    if (base >= 2 && base <= 36 && digit((unsigned char)*s) < base)
        start = read_digits(s, base, number);
    if (end)
        *end = (char *)start;
}

long strtol(const char *s, char **end, int base)
{
    struct number number;

    read_number(s, end, base, &number);
    if (number.is_too_large || number.amount > LONG_MAX + (unsigned long)number.is_negative) {
        errno = ERANGE;
        return number.is_negative ? LONG_MIN : LONG_MAX;
    }
    return (long)(number.is_negative ? -number.amount : number.amount);
}

unsigned long strtoul(const char *s, char **end, int base)
{
    struct number number;

    read_number(s, end, base, &number);
    if (number.is_too_large) {
        errno = ERANGE;
        return ULONG_MAX;
    }
    return number.is_negative ? -number.amount : number.amount;
}
