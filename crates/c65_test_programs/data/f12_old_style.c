/* Definitions in the old style, with prototypes beside them, and functions that nobody declared. */
#include "show.h"

int before(int, unsigned, long);

int before(a, b, c)
    signed char a;
    unsigned short b;
    long c;
{
    a -= 100;
    b += 1;
    return a + (b == 0) * 1000 + (int) (c / 100000);
}

behind(a, b, c)
    char a, *b;
{
    return a + b[c];
}

int behind(int, char *, int);

static int narrow(c) unsigned char c; { c++; return c; }
static int narrow(int);

int main()
{
    int f = 3;

    line(before(-100, 65535u, 1234567L));
    line(behind(256 + 5, "abc", 1));
    line(narrow(255));
    line(narrow(299));
    line(undeclared(f, 4));
    line(last());
    return 0;
}

undeclared(a, b)
{
    return a * 10 + b;
}

int last() { return 7; }
