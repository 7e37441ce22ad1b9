/* Bit-fields of many widths and offsets: within a byte, over two bytes, and of a whole unit, beside neighbours that stay. */
#include "show.h"

struct lows { unsigned a : 1, b : 2, c : 5, d : 8; };
struct highs { unsigned a : 3, b : 4, c : 1; signed d : 1; unsigned e : 2; signed f : 5; };
struct signs { signed a : 4, b : 4, c : 3; unsigned d : 3; signed e : 2; };
struct wide { unsigned a : 6, b : 4, c : 6; signed d : 7, e : 9; signed f : 16; unsigned g : 16; };
struct bytes { signed a : 8; unsigned b : 8; char after; };

static struct lows low;
static struct highs high[3];
static struct signs sign[2];
static struct wide wide;
static struct bytes byte;

static int same(struct highs *x, struct highs *y)
{
    return x->a == y->a && x->b == y->b && x->c == y->c && x->d == y->d && x->e == y->e && x->f == y->f;
}

/* Each field in turn is set to ones and to zeros between neighbours that are the other. */
static void alone(struct highs *q)
{
    struct highs none, all;

    none.a = 0, none.b = 0, none.c = 0, none.d = 0, none.e = 0, none.f = 0;
    all.a = 7, all.b = 15, all.c = 1, all.d = -1, all.e = 3, all.f = -1;
    *q = none;
    q->a = 7; line(q->a * 100 + q->b * 10 + q->c); q->a = 0; line(same(q, &none));
    q->b = 15; line(q->a * 100 + q->b * 10 + q->c); q->b = 0; line(same(q, &none));
    q->c = 1; line(q->b * 100 + q->c * 10 + q->d); q->c = 0; line(same(q, &none));
    q->d = -1; line(q->c * 100 + q->d * 10 + q->e); q->d = 0; line(same(q, &none));
    q->e = 3; line(q->d * 100 + q->e * 10 + q->f); q->e = 0; line(same(q, &none));
    q->f = -16; line(q->e * 100 + q->f); q->f = 0; line(same(q, &none));
    *q = all;
    q->a = 0; line(q->a * 100 + q->b * 10 + q->c); q->a = 7; line(same(q, &all));
    q->b = 0; line(q->a * 100 + q->b * 10 + q->c); q->b = 15; line(same(q, &all));
    q->c = 0; line(q->b * 100 + q->c * 10 + q->d); q->c = 1; line(same(q, &all));
    q->d = 0; line(q->c * 100 + q->d * 10 + q->e); q->d = -1; line(same(q, &all));
    q->e = 0; line(q->d * 100 + q->e * 10 + q->f); q->e = 3; line(same(q, &all));
    q->f = 0; line(q->e * 100 + q->f); q->f = -1; line(same(q, &all));
}

/* What does not fit is cut, in the field and in the value of the assignment. */
static void cut(int n)
{
    struct lows l, *p = &l;
    struct signs s, *q = &sign[1];

    l.a = 0, l.b = 1, l.c = 10, l.d = 100;
    line(l.a = n);
    line(p->b = n + 1);
    line(l.c = n * 2);
    line(p->d = n * 3);
    line(p->a * 1000 + p->b * 100 + p->c);
    line(p->d);
    s.a = 1, s.b = 2, s.c = 3, s.d = 4, s.e = 1;
    *q = s;
    line(q->a = n);
    line(s.b = n + 8);
    line(q->c = n - 4);
    line(s.d = n);
    line(q->e = n + 2);
    line(sign[1].a * 1000 + sign[1].b * 100 + sign[1].c * 10 + sign[1].d);
    line(s.a * 1000 + s.b * 100 + s.c * 10 + s.d);
    line(sign[1].e * 10 + s.e);
    line(byte.a = n + 200);
    line(byte.b = n + 200);
    line(byte.after);
}

static void steps(struct signs *q, unsigned char i)
{
    struct lows l;

    l.a = 1, l.b = 3, l.c = 30, l.d = 254;
    line(l.a++ * 100 + l.b++ * 10 + l.c++);
    line(++l.a * 100 + ++l.b * 10 + ++l.c);
    line(l.d++);
    line(++l.d);
    line(l.a-- * 100 + l.b-- * 10 + l.c--);
    line(--l.d);
    q[i].a = 7, q[i].b = -8, q[i].c = 3, q[i].d = 0, q[i].e = -2;
    line(q[i].a++);
    line(q[i].a);
    line(q[i].b--);
    line(--q[i].b);
    line(++q[i].c);
    line(q[i].d--);
    line(q[i].d);
    line(--q[i].e * 10 + q[i].a);
    q[i].a += 5;
    q[i].b *= -3;
    q[i].c |= 2;
    q[i].d >>= 1;
    q[i].e ^= 3;
    line(q[i].a * 1000 + q[i].b * 100 + q[i].c * 10 + q[i].d);
    line(q[i].e);
    line(q[i].d = q[i].a = q[i].c = 5);
    line(q[i].a * 100 + q[i].c * 10 + q[i].d);
}

static void wider(int n)
{
    struct wide *q = &wide, w;

    q->a = 63, q->b = 9, q->c = 33, q->d = -64, q->e = 255, q->f = -30000, q->g = 60000U;
    line(q->a * 100 + q->b * 10 + q->c);
    line(q->d + q->e);
    line(q->f);
    line(q->g == 60000U);
    q->b += n, q->e += n, q->f += n, q->g -= 40000U;
    w = *q;
    line(w.a * 100 + w.b * 10 + w.c);
    line(w.d * 10 + w.e);
    line(w.f++);
    line(w.f);
    line(w.g);
    line((w.g = 7) + (w.f = -7));
    line(w.b = 77);
}

static void tests(int n)
{
    struct highs *q = &high[2];
    int i, count = 0;

    for (i = 0; i < 3; i++) {
        high[i].a = i, high[i].b = i * 8, high[i].c = i, high[i].d = i, high[i].e = i * 2, high[i].f = i * 16;
        if (high[i].a)
            count += 1;
        if (high[i].b)
            count += 10;
        if (!high[i].c)
            count += 100;
        count += high[i].d ? 1000 : 0;
        if (high[i].e && high[i].f || high[i].b > 7)
            count += 2000;
    }
    line(count);
    while (q->b)
        q->b -= 4, count++;
    line(count);
    line(q->a && !q->c && q->e == n);
    low.a = n == 0, low.b = 2, low.c = 17, low.d = 255;
    line(low.a || low.b == 2 && low.c < low.d ? low.c << 2 : low.d);
    line((low.b << 8 | low.c) + ~low.a);
}

int main(void)
{
    byte.after = 'x';
    alone(&high[1]);
    cut(9);
    cut(-14);
    steps(sign, 1);
    wider(5);
    tests(0);
    return 0;
}
