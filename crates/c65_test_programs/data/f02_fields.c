/* Bit-fields of many widths, plain, signed and unsigned. */
#include "show.h"

struct fields {
    unsigned a : 1;
    signed int b : 1;
    int c : 3;
    signed d : 5;
    unsigned e : 16;
    signed f : 16;
    unsigned : 0;
    unsigned g : 7;
    unsigned h : 9;
    unsigned i : 10;
    unsigned : 2;
    signed j : 4;
    char last;
};

static struct fields first = { 1, -1, 5, -9, 60000u, -30000, 100, 300, 1000, -8, 'z' };

static void unsigned_line(unsigned n)
{
    if (n > 9)
        num(n / 10);
    putchar(48 + n % 10);
    putchar(10);
}

static void show(struct fields *s)
{
    line(s->a);
    line(s->b);
    line(s->c);
    line(s->d);
    unsigned_line(s->e);
    line(s->f);
    line(s->g);
    line(s->h);
    line(s->i);
    line(s->j);
    line(s->last);
}

int main(void)
{
    struct fields s;

    show(&first);
    s = first;
    line(s.a = 3);
    line(s.b = 1);
    line(s.c = 13);
    line(s.d = 17);
    s.e = -1;
    s.f = 40000u;
    line(s.g = 200);
    line(s.h = -1);
    line(s.i = 1028);
    line(s.j = 9);
    s.last = 7;
    show(&s);
    s.d = 15;
    s.d++;
    line(s.d);
    s.g = 0;
    line(s.g--);
    line(s.g);
    line(++s.i);
    line(s.h -= 500);
    line(s.c <<= 1);
    line(s.j * s.j);
    line(~s.c);
    line(-s.h);
    line(s.e > -1);
    line(s.g > -1);
    line(sizeof(struct fields));
    return 0;
}
