/* Structures and unions of 1 to 4 bytes as parameters, arguments and results (C90 6.3.2.2, 6.6.6.4). */
#include "show.h"

struct one { unsigned char a; };
struct two { unsigned char a, b; };
struct three { unsigned char a, b, c; };
struct four { unsigned char a, b, c, d; };
struct mixed { char a; int b; };
struct wide { long n; };
struct pair { int a, b; };
struct nest { struct two x; struct one y; };
struct text { char s[3]; };
union word { int n; unsigned char part[2]; };
union large { long n; unsigned char part[4]; struct two half[2]; };
struct bits { unsigned int low : 3, mid : 5, high : 8; };
struct signs { signed int low : 4; signed int high : 12; };
struct to { int *at; };
struct both { int *at; struct two *next; };

static int cell = 40;
static struct two target = { 6, 7 };

static struct one make_one(int a) { struct one r; r.a = a; return r; }
static struct two make_two(int a, int b) { struct two r; r.a = a; r.b = b; return r; }
static struct three make_three(int a, int b, int c) { struct three r; r.a = a; r.b = b; r.c = c; return r; }
static struct four make_four(int a, int b, int c, int d) { struct four r; r.a = a; r.b = b; r.c = c; r.d = d; return r; }
static struct mixed make_mixed(int a, int b) { struct mixed r; r.a = a; r.b = b; return r; }
static struct wide make_wide(long n) { struct wide r; r.n = n; return r; }
static struct pair make_pair(int a, int b) { struct pair r; r.a = a; r.b = b; return r; }
static struct nest make_nest(struct two x, struct one y) { struct nest r; r.x = x; r.y = y; return r; }
static struct text make_text(const char *s) { struct text r; r.s[0] = s[0]; r.s[1] = s[1]; r.s[2] = s[2]; return r; }
static union word make_word(int n) { union word r; r.n = n; return r; }
static union large make_large(long n) { union large r; r.n = n; return r; }
static struct bits make_bits(int low, int mid, int high) { struct bits r; r.low = low; r.mid = mid; r.high = high; return r; }
static struct signs make_signs(int low, int high) { struct signs r; r.low = low; r.high = high; return r; }
static struct to make_to(int *at) { struct to r; r.at = at; return r; }
static struct both make_both(int *at, struct two *next) { struct both r; r.at = at; r.next = next; return r; }

static int of_one(struct one x) { return x.a; }
static int of_two(struct two x) { return x.a * 10 + x.b; }
static int of_three(struct three x) { return x.a * 100 + x.b * 10 + x.c; }
static int of_four(struct four x) { return x.a * 1000 + x.b * 100 + x.c * 10 + x.d; }
static int of_mixed(struct mixed x) { return x.a - x.b; }
static long of_wide(struct wide x) { return x.n; }
static int of_pair(struct pair x) { return x.a * 2 + x.b; }
static int of_nest(struct nest x) { return x.x.a * 100 + x.x.b * 10 + x.y.a; }
static int of_text(struct text x) { return x.s[0] * 2 + x.s[1] - x.s[2]; }
static int of_word(union word x) { return x.part[0] * 3 + x.part[1]; }
static int of_large(union large x) { return x.part[0] + x.part[1] * 10 + x.half[1].a * 100 + x.half[1].b * 1000; }
static int of_bits(struct bits x) { return x.low * 1000 + x.mid * 100 + x.high; }
static int of_signs(struct signs x) { return x.low * 100 + x.high; }
static int of_to(struct to x) { return *x.at; }
static int of_both(struct both x) { return *x.at + x.next->a * 10 + x.next->b; }

static void change(struct four x)
{
    x.a = 9;
    x.d = x.d + x.a;
    line(of_four(x));
}

static struct three turned(struct three x)
{
    unsigned char a = x.a;

    x.a = x.c;
    x.c = a;
    return x;
}

static struct four global;

static struct four whole(void)
{
    return global;
}

static struct two part(void)
{
    return target;
}

int main(void)
{
    struct four four;
    struct three three;

    line(of_one(make_one(201)));
    line(of_two(make_two(3, 4)));
    line(of_three(make_three(5, 6, 7)));
    line(of_four(make_four(1, 2, 3, 4)));
    line(of_mixed(make_mixed(100, -1000)));
    line((int) (of_wide(make_wide(0x01020304L)) >> 16));
    line((int) (of_wide(make_wide(-70000L)) / 10));
    line(of_pair(make_pair(-500, 77)));
    line(of_nest(make_nest(make_two(8, 9), make_one(1))));
    line(of_text(make_text("abc")));
    line(of_word(make_word(0x0205)));
    line(of_large(make_large(0x04030201L)));
    line(of_bits(make_bits(5, 17, 200)));
    line(of_signs(make_signs(-8, 2047)));
    line(of_signs(make_signs(7, -2048)));
    line(of_to(make_to(&cell)));
    line(of_both(make_both(&cell, &target)));
    *make_to(&cell).at = 41;
    line(cell);
    make_both(&cell, &target).next->b = 3;
    line(target.b);
    four = make_four(1, 1, 1, 1);
    change(four);
    line(of_four(four));
    three = make_three(1, 2, 3);
    line(of_three(turned(three)) - of_three(three));
    line(of_three(turned(turned(three))));
    global = four;
    global.c = 5;
    line(of_four(whole()));
    four = whole();
    global.c = 6;
    line(of_four(four) * 2 + whole().c);
    line(of_two(part()));
    return 0;
}
