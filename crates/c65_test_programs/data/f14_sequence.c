/* What is evaluated, and in which order, where C says so: commas, logical operators, choices. */
#include "show.h"

static int trace;

static int step(int n)
{
    trace = trace * 10 + n;
    return n;
}

static int took(void)
{
    int t = trace;

    trace = 0;
    return t;
}

int main(void)
{
    int a = 1, b = 2, i = 0, list[4];
    int *p = list;

    line((a++, b += a, a * 10 + b));
    line((step(1), step(2), step(3)) + 0);
    line(took());
    line(step(0) && step(1));
    line(took());
    line(step(2) && step(0) || step(3));
    line(took());
    line(step(4) || step(5) && step(6));
    line(took());
    line(!step(0) && !!step(7));
    line(took());
    line(step(1) ? step(2) : step(3));
    line(step(0) ? step(2) : step(0) ? step(4) : step(5));
    line(took());
    line((step(1), 0) || (step(2), 0));
    line(took());
    for (i = 0, a = 10; i < a; i++, a--)
        ;
    line(i * 10 + a);
    *p++ = 1, *p++ = 2;
    *p = *(p - 1) + p[-2], ++p;
    *p = p - list;
    line(list[0] * 1000 + list[1] * 100 + list[2] * 10 + list[3]);
    i = 2;
    list[i]++, list[i] *= list[i];
    line(list[2]);
    a = b = i = 4;
    a += b -= i *= 2;
    line(a * 100 + b * 10 + i);
    line(a > b > i);
    line(-a - -b - - -i);
    line(a+++b);
    line(a - -b);
    line(~-a == a - 1);
    line(a & b == b);
    line(1 << 2 + 1);
    line(6 & 3 ^ 5 | 8);
    i = 5;
    while (i --> 0)
        putchar('0' + i);
    putchar(10);
    return took();
}
