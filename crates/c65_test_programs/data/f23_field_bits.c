/* Bit-fields of one byte as conditions, and set where nothing needs the value: at known places, behind pointers, by numbers, by light values and by others. */
#include "show.h"

struct set {
    unsigned a : 1, b : 3, c : 4, d : 8;
    signed e : 4, f : 4;
    unsigned g : 7, h : 1;
    unsigned i : 5, j : 4, k : 7;
};
struct outer { char before[5]; struct set in; char between[251]; struct set last; };

static struct set s, many[3];
static struct outer o;
static int calls;
static unsigned char byte = 203;

static void show(const struct set *p)
{
    num(p->a); putchar(32);
    num(p->b); putchar(32);
    num(p->c); putchar(32);
    num(p->d); putchar(32);
    num(p->e); putchar(32);
    num(p->f); putchar(32);
    num(p->g); putchar(32);
    num(p->h); putchar(32);
    num(p->i); putchar(32);
    num(p->j); putchar(32);
    num(p->k); putchar(10);
}

static int given(int n)
{
    calls++;
    return n;
}

static void test(const struct set *p)
{
    int n = 0;

    if (p->a) putchar(49); else putchar(48);
    if (p->b) putchar(49); else putchar(48);
    if (p->c) putchar(49); else putchar(48);
    if (p->d) putchar(49); else putchar(48);
    if (p->e) putchar(49); else putchar(48);
    if (p->f) putchar(49); else putchar(48);
    if (p->g) putchar(49); else putchar(48);
    if (p->h) putchar(49); else putchar(48);
    if (p->i) putchar(49); else putchar(48);
    if (p->j) putchar(49); else putchar(48);
    if (p->k) putchar(49); else putchar(48);
    putchar(32);
    if (!p->a) putchar(49); else putchar(48);
    if (!p->b) putchar(49); else putchar(48);
    if (!p->c) putchar(49); else putchar(48);
    if (!p->d) putchar(49); else putchar(48);
    if (!p->e) putchar(49); else putchar(48);
    if (!p->f) putchar(49); else putchar(48);
    if (!p->g) putchar(49); else putchar(48);
    if (!p->h) putchar(49); else putchar(48);
    if (!p->i) putchar(49); else putchar(48);
    if (!p->j) putchar(49); else putchar(48);
    if (!p->k) putchar(49); else putchar(48);
    putchar(32);
    n = n * 2 + (p->a == 0);
    n = n * 2 + (p->b != 0);
    n = n * 2 + (0 != p->c);
    n = n * 2 + (!!p->d);
    n = n * 2 + (p->e == 0);
    n = n * 2 + (p->f != 0);
    n = n * 2 + (0 != p->g);
    n = n * 2 + (!!p->h);
    n = n * 2 + (p->i == 0);
    n = n * 2 + (p->j != 0);
    n = n * 2 + (0 != p->k);
    line(n);
    line(p->a && p->b || p->c && !p->h);
    line(p->e ? p->f ? 1 : 2 : 3);
    n = 0;
    while (p->g && n < 3) n++;
    do n += 10; while (p->i && n < 40);
    for (; p->d && n < 60; n += 7) ;
    line(n);
}

static void known(void)
{
    struct set t;
    unsigned u = 45321U;
    int m = -3;

    t = s;
    s.a = 1;
    s.b = 7;
    s.c = 15;
    s.d = 255;
    s.e = -1;
    s.f = 7;
    s.g = 127;
    s.h = 1;
    s.i = 31;
    s.j = 15;
    s.k = 127;
    show(&s);
    test(&s);
    s.a = 0;
    s.b = 5;
    s.c = 0;
    s.d = 0;
    s.e = -8;
    s.f = -1;
    s.g = 0;
    s.h = 0;
    s.i = 0;
    s.j = 9;
    s.k = 1;
    show(&s);
    test(&s);
    s.h = 1;
    s.g = 85;
    s.f = 0;
    s.e = 5;
    s.d = 170;
    s.c = 9;
    s.b = 0;
    s.a = 1;
    s.k = 64;
    s.j = 0;
    s.i = 17;
    show(&s);
    test(&s);
    s.a = 2;
    s.b = 12;
    s.c = 31;
    s.d = 300;
    s.e = 9;
    s.f = 100;
    s.g = 200;
    s.h = 3;
    s.i = -1;
    s.j = -2;
    s.k = -3;
    show(&s);
    test(&s);
    t.a = 1;
    t.b = 7;
    t.c = 15;
    t.d = 255;
    t.e = -1;
    t.f = 7;
    t.g = 127;
    t.h = 1;
    t.i = 31;
    t.j = 15;
    t.k = 127;
    show(&t);
    t.a = 0;
    t.b = 5;
    t.c = 0;
    t.d = 0;
    t.e = -8;
    t.f = -1;
    t.g = 0;
    t.h = 0;
    t.i = 0;
    t.j = 9;
    t.k = 1;
    show(&t);
    t.h = 1;
    t.g = 85;
    t.f = 0;
    t.e = 5;
    t.d = 170;
    t.c = 9;
    t.b = 0;
    t.a = 1;
    t.k = 64;
    t.j = 0;
    t.i = 17;
    show(&t);
    s.a = u; s.b = u; s.c = u >> 4; s.d = u; s.e = m; s.f = m - 9; s.g = byte; s.h = byte; s.i = m; s.j = u; s.k = m;
    show(&s);
    t.a = s.d; t.b = s.g + 1; t.c = t.c + 9; t.d = t.d - 1; t.e = t.e + t.f; t.f = -s.e; t.g = s.g ^ 85; t.h = !t.h; t.i = t.i + 30; t.j = s.k; t.k = t.k << 1;
    show(&t);
    test(&t);
    line(s.b = 13); line(s.e = 12); line(t.g = 255); line((t.h = 2) + 5);
}

static void behind(struct set *p, const struct set *q, int n)
{
    p->a = 1;
    p->b = 7;
    p->c = 15;
    p->d = 255;
    p->e = -1;
    p->f = 7;
    p->g = 127;
    p->h = 1;
    p->i = 31;
    p->j = 15;
    p->k = 127;
    show(p);
    p->a = 0;
    p->b = 5;
    p->c = 0;
    p->d = 0;
    p->e = -8;
    p->f = -1;
    p->g = 0;
    p->h = 0;
    p->i = 0;
    p->j = 9;
    p->k = 1;
    show(p);
    p->h = 1;
    p->g = 85;
    p->f = 0;
    p->e = 5;
    p->d = 170;
    p->c = 9;
    p->b = 0;
    p->a = 1;
    p->k = 64;
    p->j = 0;
    p->i = 17;
    show(p);
    p->a = 2;
    p->b = 12;
    p->c = 31;
    p->d = 300;
    p->e = 9;
    p->f = 100;
    p->g = 200;
    p->h = 3;
    p->i = -1;
    p->j = -2;
    p->k = -3;
    show(p);
    p->a = n;
    p->b = q->c;
    p->c = p->c + 1;
    p->d = n - 1;
    p->e = q->e;
    p->f = n ^ 21;
    p->g = given(n);
    p->h = p->a;
    p->i = n / 3;
    p->j = q->b;
    p->k = p->k + p->g;
    show(p);
    test(p);
    p->e = q->f, p->b = p->b + 3, p->d = p->d + q->d;
    p->a = p->a == 0, p->h = p->g > 5;
    show(p);
}

int main(void)
{
    struct set *p = many;
    struct outer *r = &o;
    int n;

    known();
    behind(&many[1], &s, 1234);
    show(&many[0]);
    show(&many[2]);
    for (n = 0; n < 3; n++) {
        many[n].a = n; many[n].c = n * 7; many[n].g = given(n) + 90; many[n].f = 3; p->e = n + 1; p++;
    }
    show(&many[0]); show(&many[1]); show(&many[2]);
    o.in.b = 6; o.last.b = 5; r->in.c = 11; r->last.c = 10; r->in.i = n; r->last.i = n + 9; r->last.h = 1; (*r).in.e = -2;
    o.in.d = o.last.b; r->last.d = r->in.c; o.last.f = r->in.e;
    show(&o.in); show(&o.last); test(&o.in); test(&o.last);
    line(o.before[4]); line(o.between[0]); line(o.between[250]); line(calls);
    return 0;
}
