/* Names of types, tags, members, labels and objects beside and over one another. */
#include "show.h"

typedef int t;
typedef struct t { t t; struct u { t v; } u; } s;
enum e { one = 1, two, ten = 10, eleven, minus = -1, zero };

static t f(t t)
{
    return t + 1;
}

static int g(int e)
{
    struct t { char t[5]; } v;
    enum { two = 20, three };

    v.t[4] = 6;
    goto t;
    e = 0;
t:
    return sizeof v + v.t[4] + two + three + e;
}

static int h(void)
{
    t a = 2;
    {
        int t = 3;
        a += t * (t);
        {
            typedef char t;
            t b = 300;
            a += b + sizeof(t);
        }
        a += t;
    }
    {
        t t = 4;
        a += t;
    }
    return a + (t) 5;
}

static unsigned k(const t, const s *);
static unsigned k(const t a, const s *p) { return a + p->t + p->u.v; }

int main(void)
{
    s x;
    struct t y;
    struct u z;
    enum e c = eleven;

    x.t = 1;
    x.u.v = 2;
    y = x;
    z = y.u;
    line(f(4));
    line(g(1));
    line(h());
    line(k(3, &x));
    line(z.v + y.t);
    line(c + two + minus + zero);
    line(sizeof(enum e) + sizeof ten);
    {
        int two = 7, x = two, c[sizeof x];

        line(two + x + sizeof c);
    }
    return 0;
}
