/* Functions with `...`: further arguments of each kind, mixed and none (C90 6.3.2.2, 6.7.1). */
#include "show.h"
#include "rest.h"

struct one { unsigned char a; };
struct two { int n; };
struct three { unsigned char a; int b; };
union four { long n; int half[2]; };
typedef int (*function)(int, ...);

static int cell = 9;

static struct one make_one(int a) { struct one r; r.a = a; return r; }
static struct two make_two(int n) { struct two r; r.n = n; return r; }
static struct three make_three(int a, int b) { struct three r; r.a = a; r.b = b; return r; }
static union four make_four(long n) { union four r; r.n = n; return r; }

static int sum(int n, ...)
{
    va_list p;
    int total = 0;

    va_start(p, n);
    while (n--)
        total += va_arg(p, int);
    va_end(p);
    return total;
}

static int vsum(int n, va_list p)
{
    int total = 0;

    for (; n > 0; n--)
        total = total * 2 + va_arg(p, int);
    return total;
}

static int handed(char times, int n, ...)
{
    va_list p;
    int total;

    va_start(p, n);
    total = times * vsum(n, p);
    va_end(p);
    return total;
}

/* each letter of the form takes an argument */
static long mixed(const char *form, ...)
{
    va_list p;
    long total = 0;

    va_start(p, form);
    for (; *form; form++) {
        total *= 3;
        switch (*form) {
        case 'i': total += va_arg(p, int); break;
        case 'u': total += va_arg(p, unsigned int); break;
        case 'l': total += va_arg(p, long); break;
        case 'p': total += *va_arg(p, int *); break;
        case 's': total += va_arg(p, const char *)[1]; break;
        case 'f': total += va_arg(p, function)(2, 30, 4); break;
        case '1': { struct one x = va_arg(p, struct one); total += x.a; break; }
        case '2': total += va_arg(p, struct two).n; break;
        case '3': { struct three x; x = va_arg(p, struct three); total += x.a * 7 + x.b; break; }
        case '4': total += va_arg(p, union four).n; break;
        }
    }
    va_end(p);
    return total;
}

/* named parameters of each size before the `...` */
static int named(struct one a, char b, struct three c, long d, ...)
{
    va_list p;
    int i = 0, first, second;

    va_start(p, d);
    first = va_arg(p, int);
    if (first) {
        va_list q;

        va_start(q, d);
        i = va_arg(q, int) * 2;
        va_end(q);
    }
    second = va_arg(p, int);
    va_end(p);
    b++;
    c.b += a.a;
    return i + first + second * 10 + a.a + b + c.a + c.b + (int) d;
}

static int none(int a, ...)
{
    a++;
    return a * 2;
}

static struct three built(int n, ...)
{
    struct three r;
    va_list p;

    r.a = n;
    r.b = 0;
    va_start(p, n);
    while (n-- > 0)
        r.b += va_arg(p, struct three).b;
    va_end(p);
    return r;
}

static int down(int n, ...)
{
    va_list p;
    int x, y;

    va_start(p, n);
    x = va_arg(p, int);
    y = n ? down(n - 1, x + n, 1) : 0;
    x = x * 2 + y - va_arg(p, int);
    va_end(p);
    return x;
}

static int outer(int n, ...)
{
    va_list p;
    int a, b;

    va_start(p, n);
    a = va_arg(p, int);
    b = sum(n, a, sum(2, a, 1), none(a, 5L, "x"), none(3));
    a = va_arg(p, int);
    va_end(p);
    return a * 100 + b;
}

static int __cdecl__ plain(int n, ...)
{
    va_list p;

    va_start(p, n);
    n -= va_arg(p, int);
    va_end(p);
    return n;
}

static void nothing(char *where, ...)
{
    va_list p;

    va_start(p, where);
    *where = va_arg(p, int);
    where[1] = va_arg(p, int);
    va_end(p);
}

int main(void)
{
    int (*by)(int, ...) = sum;
    char text[2];
    char c = 200;
    short s = -5;
    int i;
    long wide;

    line(sum(3, 1, 20, 300));
    line(sum(0));
    line(sum(1, 7, 8, 9));
    line(sum(4, c, s, (char) 3, -30000 + 100));
    line(handed(3, 4, 1, 2, 3, 4));
    line((int) mixed("iuli", 5, 60000u, 100000L, -2) / 10);
    wide = mixed("lil", 70000L, 40, 80000L);
    line((int) (wide / 1000));
    line((int) (wide % 1000));
    line((int) mixed("psf", &cell, "abc", sum));
    line((int) mixed("1i1", make_one(200), 10, make_one(3)));
    line((int) mixed("3i2", make_three(250, -1000), 1, make_two(77)));
    line((int) (mixed("4l4", make_four(0x10000L), 2L, make_four(-65536L)) / 16));
    line((int) mixed("2331", make_two(-4), make_three(1, 2), make_three(3, 4), make_one(5)));
    line((int) mixed(""));
    line(named(make_one(10), 20, make_three(30, 40), 50L, 6, 7));
    line(named(make_one(1), 2, make_three(3, 4), 5L, 0, 8));
    line(none(20));
    line(none(20, 1L, c, &i, make_three(1, 2)));
    line(built(3, make_three(1, 10), make_three(2, 20), make_three(3, 30)).b);
    line(built(0).b + built(1, make_three(4, 44)).a);
    line(down(5, 100, 3));
    line(outer(4, 6, 8));
    line(plain(50, 8));
    line(by(2, 40, 2) + (*by)(1, sum(2, 3, 4)));
    nothing(text, 65, 66);
    putchar(text[0]);
    putchar(text[1]);
    putchar(10);
    for (i = 0; i < 3; i++)
        line(sum(i, 1, 2, 3));
    line(sum(12, 1, 2, 3, 4, 5, 6, 7, 8, 9, 10, 11, 12));
    return sum(2, 3, 4);
}
