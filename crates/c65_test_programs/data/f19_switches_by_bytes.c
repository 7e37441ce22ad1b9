/* Switches whose cases are all from 0 to 255, and some that have others beside them. */
#include "show.h"

static int by_int(int n)
{
    switch (n) {
    case 0:
        return 1;
    case 'x':
        return 2;
    case 255:
        return 3;
    default:
        return 4;
    }
}

static int without_default(unsigned u)
{
    int seen = 0;

    switch (u) {
    case 255:
        seen += 1;
    case 0:
        seen += 20;
        break;
    case 128:
        seen += 300;
    }
    return seen;
}

static int with_larger(int n)
{
    switch (n) {
    case 0:
        return 1;
    case 256:
        return 2;
    case 255:
        return 3;
    }
    return 4;
}

static int with_negative(int n)
{
    switch (n) {
    case 0:
        return 1;
    case -1:
        return 2;
    case 255:
        return 3;
    }
    return 4;
}

static int by_long(long n)
{
    switch (n) {
    case 0:
        return 1;
    case 1:
        return 2;
    case 255:
        return 3;
    }
    return 4;
}

static int by_char(unsigned char c)
{
    switch (c) {
    default:
        return 1;
    case 255:
        return 2;
    case 0:
        return 3;
    }
}

static int of_one(int n)
{
    switch (n)
    case 7:
        return 1;
    return 0;
}

static int inside(int a, int b)
{
    int seen = 0;

    switch (a) {
    case 1:
        seen = 10;
        switch (b) {
        case 1:
            seen += 1;
        default:
            seen += 2;
        }
    case 2:
        seen += 100;
        break;
    default:
        seen = 9;
    }
    return seen;
}

int main(void)
{
    static int values[] = { 0, 1, 120, 128, 254, 255, 256, 257, 376, 511, 512, -1, -255, -256, -136, -32767 };
    int i;

    for (i = 0; i < 16; i++) {
        num(by_int(values[i]));
        num(without_default((unsigned)values[i]));
        num(with_larger(values[i]));
        num(with_negative(values[i]));
        num(by_long((long)values[i]));
        num(by_char((unsigned char)values[i]));
        line(of_one(values[i]));
    }
    line(by_long(65536L) * 100 + by_long(65791L) * 10 + by_long(-65535L));
    line(of_one(7) * 100 + of_one(263) * 10 + of_one(-249));
    line(inside(1, 1));
    line(inside(1, 257));
    line(inside(2, 1));
    line(inside(257, 1));
    return 0;
}
