/* Structures that are passed first, last and among other arguments, in registers and on the stack, by pointers to functions and in recursion. */
#include "show.h"

struct one { unsigned char a; };
struct two { int n; };
struct three { unsigned char a, b, c; };
struct four { int a; int b; };

static struct one make_one(int a) { struct one r; r.a = a; return r; }
static struct two make_two(int n) { struct two r; r.n = n; return r; }
static struct three make_three(int n) { struct three r; r.a = n; r.b = n + 1; r.c = n + 2; return r; }
static struct four make_four(int n) { struct four r; r.a = n; r.b = -n; return r; }

static int sum(struct three x) { return x.a + x.b + x.c; }

/* each size first, among others and last */
static int first_one(struct one x, int n) { return x.a * 2 + n; }
static int first_two(struct two x, char n) { return x.n * 2 + n; }
static int first_three(struct three x, long n) { return sum(x) * 2 + (int) n; }
static int first_four(struct four x, int n) { return x.a * 3 + x.b + n; }
static int among(int a, struct one p, char b, struct two q, long c, struct three r, int *d, struct four s)
{
    return a + p.a * 2 + b * 3 + q.n * 4 + (int) c * 5 + sum(r) * 6 + *d * 7 + s.a * 8 + s.b;
}
static int last_three(struct four s, struct one p, struct three r) { return s.a - p.a + sum(r); }
static int last_one(struct three r, struct two q, struct one p) { return sum(r) * 10 - q.n + p.a; }

/* all on the stack */
static int __cdecl__ stacked(struct three r, int n, struct one p) { return sum(r) + n * p.a; }
static struct four __cdecl__ stacked_four(struct four s) { struct four r; r.a = s.b; r.b = s.a; return r; }
static struct three __cdecl__ stacked_three(struct three r, struct three q) { r.a = q.c; r.c = q.a; return r; }

/* in the old style, and without a prototype */
static int old(p, n, r)
struct two p;
char n;
struct three r;
{
    return p.n + n * 2 + sum(r) * 3;
}
static struct three later();
static int unknown();

/* by pointers */
static int by(int (*f)(struct two, char), struct two x) { return f(x, 5); }
static struct four turned(struct four s) { struct four r; r.a = s.b; r.b = s.a; return r; }
static struct four doubled(struct four s) { struct four r; r.a = s.b * 2; r.b = s.a; return r; }
static struct four (*makers[2])(struct four) = { turned, turned };

/* recursion: the parameter and what is given stand in each call by themselves */
static struct two count(struct two x)
{
    struct two y;

    if (x.n == 0)
        return x;
    y = count(make_two(x.n - 1));
    y.n += x.n;
    return y;
}
static struct four euclid(struct four x)
{
    return x.b == 0 ? x : euclid(stacked_four(make_four(0).a == 0 ? (x.a %= x.b, x) : x));
}
static struct three fill(struct three x, int depth)
{
    if (depth == 0)
        return x;
    x.b++;
    return fill(fill(x, depth - 1), depth - 1);
}

static int in_register(register struct two x, register int n)
{
    register struct two y = x;

    y.n += n;
    return x.n * 100 + y.n;
}

int main(void)
{
    int seven = 7;
    struct four four;

    line(first_one(make_one(100), -1));
    line(first_two(make_two(-300), 9));
    line(first_three(make_three(250), 1000L));
    line(first_four(make_four(1000), 24));
    line(among(1, make_one(2), 3, make_two(4), 5L, make_three(6), &seven, make_four(8)));
    line(last_three(make_four(500), make_one(200), make_three(10)));
    line(last_one(make_three(20), make_two(30), make_one(40)));
    line(stacked(make_three(1), 10, make_one(5)));
    four = stacked_four(make_four(123));
    line(four.a);
    line(four.b);
    line(sum(stacked_three(make_three(3), make_three(100))));
    line(stacked_three(make_three(3), make_three(100)).c);
    line(old(make_two(1000), 7, make_three(2)));
    line(later(make_one(9), 3).b);
    line(unknown(make_three(4), make_four(11)));
    line(by(first_two, make_two(20)));
    makers[1] = doubled;
    line(makers[0](make_four(6)).a + (*makers[1])(make_four(6)).a * 10);
    line(count(make_two(40)).n);
    four.a = 252;
    four.b = 105;
    line(euclid(four).a);
    line(four.a + four.b);
    line(fill(make_three(0), 5).b);
    line(sum(fill(fill(make_three(1), 2), 3)));
    line(in_register(make_two(3), 40));
    return make_two(0).n;
}

static struct three later(p, n)
struct one p;
int n;
{
    return make_three(p.a + n);
}

static int unknown(r, s)
struct three r;
struct four s;
{
    return sum(r) * s.a;
}
