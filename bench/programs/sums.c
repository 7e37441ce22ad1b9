/* Sums as text: an expression is read by descent and its value is printed, with names and signs. */
#include <stdio.h>

static const char *here;
static int names[26];
static unsigned char failed;

static int sum(void);

static void skip(void)
{
    while (*here == ' ')
        here++;
}

static int number(void)
{
    int value = 0;

    while (*here >= '0' && *here <= '9')
        value = value * 10 + (*here++ - '0');
    return value;
}

static int factor(void)
{
    int value;

    skip();
    if (*here == '-') {
        here++;
        return -factor();
    }
    if (*here == '(') {
        here++;
        value = sum();
        skip();
        if (*here == ')')
            here++;
        else
            failed = 1;
        return value;
    }
    if (*here >= 'a' && *here <= 'z')
        return names[*here++ - 'a'];
    if (*here < '0' || *here > '9')
        failed = 1;
    return number();
}

static int product(void)
{
    int value = factor(), other;
    char sign;

    for (skip(); *here == '*' || *here == '/' || *here == '%'; skip()) {
        sign = *here++;
        other = factor();
        if (sign == '*')
            value *= other;
        else if (other == 0)
            failed = 1;
        else if (sign == '/')
            value /= other;
        else
            value %= other;
    }
    return value;
}

static int sum(void)
{
    int value = product();

    for (skip(); *here == '+' || *here == '-'; skip())
        if (*here++ == '+')
            value += product();
        else
            value -= product();
    return value;
}

static void print(int n)
{
    if (n < 0) {
        putchar('-');
        n = -n;
    }
    if (n >= 10)
        print(n / 10);
    putchar('0' + n % 10);
}

static const char *const lines[] = {
    "1 + 2 * 3", "(1 + 2) * 3", "-(4 - 10) * -7 / 5", "1000 % 37 + a * b", "((((c)))) - 12 / (d - 3)",
    "2 * (3 + 4 * (5 - 6 * (7 - 8)))", "5 / 0", "a * a - b * b + (a - b) * (a + b)", "7 +", "32767 - z"};

int main(void)
{
    unsigned turn, i;
    int value, total = 0, faults = 0;

    for (i = 0; i < 26; i++)
        names[i] = (int)i * 3 - 20;
    for (turn = 0; turn < 20; turn++)
        for (i = 0; i < sizeof lines / sizeof lines[0]; i++) {
            here = lines[i];
            failed = 0;
            value = sum();
            if (turn == 19) {
                if (failed)
                    putchar('?');
                else
                    print(value);
                putchar('\n');
            }
            faults += failed;
            total ^= value;
        }
    print(total);
    putchar('\n');
    return faults;
}
