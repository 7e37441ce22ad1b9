/* Switches over each kind of integer. */
#include "show.h"

static int over_char(char c)
{
    switch (c) {
    case 'a': case 'b':
        return 1;
    case 200:
        return 2;
    case -56:
        return 3;
    }
    return 4;
}

static int over_unsigned(unsigned u)
{
    switch (u) {
    case -1:
        return 1;
    case 0x8000:
        return 2;
    case 40000:
        return 3;
    default:
        return 4;
    case 65534:
        return 5;
    }
}

static int over_long(long n)
{
    switch (n) {
    case 70000:
        return 1;
    case 70000 - 65536:
        return 2;
    case -70000:
        return 3;
    case 'x':
        return 4;
    }
    return 5;
}

static int over_int(int n)
{
    int seen = 0;

    switch (n + 1) {
    case 1:
        seen += 1;
    case 2:
        seen += 20;
        switch (seen) {
        case 20:
            break;
        case 21:
            seen += 300;
        }
        break;
    case 1 + 2 * 3:
        seen = -1;
    default:
        ;
    }
    return seen;
}

int main(void)
{
    enum { red, green = 5, blue } colour;
    int i;

    line(over_char('a') * 1000 + over_char('b') * 100 + over_char(200) * 10 + over_char('c'));
    line(over_unsigned(65535u) * 1000 + over_unsigned(32768u) * 100 + over_unsigned(40000u) * 10 + over_unsigned(-2));
    line(over_unsigned(1));
    line(over_long(70000L) * 1000 + over_long(4464) * 100 + over_long(-70000L) * 10 + over_long(120));
    line(over_long(4465));
    for (i = -1; i < 8; i++)
        line(over_int(i));
    for (colour = red; colour <= blue; colour = colour == red ? green : colour + 1)
        switch (colour) {
        case red:
            putchar('r');
            break;
        case green:
            putchar('g');
            break;
        case blue:
            putchar('b');
        }
    putchar(10);
    switch (3)
        line(1);
    switch (3)
    case 3:
        line(2);
    return 0;
}
