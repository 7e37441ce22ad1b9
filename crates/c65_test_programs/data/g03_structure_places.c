/* What a call gives as a member's place, an initial value, an assignment, an operand of `?:` and of a comma, and an argument. */
#include "show.h"

struct pair { unsigned char a; int b; };
struct deep { struct { unsigned char x, y; } in; unsigned char z; };
union cell { long n; struct pair p; };

static struct pair mk(int a, int b) { struct pair r; r.a = a; r.b = b; return r; }
static struct deep dp(int x) { struct deep r; r.in.x = x; r.in.y = x + 1; r.z = x + 2; return r; }
static union cell un(long n) { union cell r; r.n = n; return r; }
static int sum(struct pair x) { return x.a + x.b; }
static int two(struct pair x, struct pair y) { return sum(x) * 10 + sum(y); }
static struct pair add(struct pair x, struct pair y) { x.a += y.a; x.b += y.b; return x; }
static int flat(struct deep d) { return d.in.x * 100 + d.in.y * 10 + d.z; }

static int calls;
static struct pair counted(int b)
{
    return mk(++calls, b);
}

static struct pair kept[3];

static struct pair *at(int i)
{
    return kept + i;
}

static struct pair found(int i)
{
    int j;

    for (j = 0; j < 3; j++)
        if (j == i)
            return kept[j];
    return mk(0, -1);
}

static void nothing(struct pair x)
{
    x.b = 0;
}

int main(void)
{
    struct pair p = mk(1, 2), q = p, r;
    const struct pair constant = mk(7, 70);
    volatile struct pair moving;
    union cell c;
    int i;

    line(mk(5, 10).b);
    line(mk(5, 10).a + mk(6, 11).b * mk(1, 3).b);
    line(dp(4).in.y * 10 + dp(6).z);
    line(flat(dp(1)));
    line((int) un(0x00050403L).p.a + un(0x00050403L).p.b % 100);
    line(sum(p) + sum(q) * 10);
    q = mk(3, 4);
    r = q = add(p, q);
    line(r.a * 100 + r.b * 10 + q.b);
    p = add(add(p, q), add(q, mk(10, 20)));
    line(p.a * 100 + p.b);
    line(two(mk(1, 2), mk(3, 4)));
    line(two(p, mk(0, 1)) - two(mk(0, 1), p));
    for (i = 0; i < 3; i++)
        *at(i) = mk(i, i * i);
    kept[1] = found(2);
    line(kept[1].b + found(0).a + found(5).b);
    line(sum(i == 3 ? mk(1, 1) : p));
    line(sum(i != 3 ? mk(1, 1) : q));
    line((i == 3 ? mk(9, 8) : mk(7, 6)).b * 10 + (i ? q : p).a);
    line(sum((i = 5, mk(i, i))));
    line((p.a = 2, q).b);
    line((mk(1, 2), mk(3, 4)).b);
    line(sum(r = mk(12, 13)) + r.a);
    r = i > 4 ? add(p, p) : (q);
    line(r.b);
    line(constant.a + sum(constant));
    moving = constant;
    moving.b++;
    line(sum(moving));
    c.n = 0;
    c.p = mk(1, 258);
    line((int) (c.n >> 8 & 0xFF) * 10 + (int) (c.n >> 16 & 0xFF));
    calls = 0;
    line(counted(100).a + counted(200).b + counted(300).a);
    counted(0);
    (void) counted(0);
    line(calls);
    line(add(counted(10), counted(20)).b);
    line(i ? calls : counted(0).a);
    line(i && counted(0).b || counted(1).b);
    line(calls);
    while (counted(0).a < 12)
        nothing(counted(1));
    line(calls);
    switch (mk(0, 258).b) {
    case 2:
        line(1);
        break;
    case 258:
        line(2);
    }
    for (i = 0, p = mk(0, 0); p.b < 20; p = add(p, mk(1, 5)))
        i += sum(p);
    line(i);
    {
        struct pair inner = add(p, q), array[2];

        array[1] = inner;
        array[0] = add(array[1], inner);
        line(array[0].b - inner.b);
        line(sum(array[found(1).b - 4 + 1]) - sum(inner));
    }
    line(sizeof mk(1, 2) * 100 + sizeof(mk(1, 2).b) * 10 + sizeof un(0));
    line(-mk(0, 4).b + !mk(1, 0).a + ~mk(1, 0).b);
    i = mk(0, 9).b;
    i += mk(0, 9).b;
    line(i);
    return mk(1, 42).b;
}
