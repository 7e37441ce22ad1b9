#include "show.h"

typedef int T;
struct T { T T; };
static T x = 1;
static int f(T T) { return T + 1; }
int main(void)
{
    struct T v;
    int x = 2;
    v.T = 3;
    goto x;
x:
    line(v.T + x);
    { T x = x = 5, T = 6; line(x + T); }
    { extern int g; line(g); }
    { struct T { char a[5]; } w; line(sizeof w); }
    { enum { x = 40, y } z = y; line(x + z); }
    for (;;) { int x = 9; line(x); break; }
    line(f(7)); line(x);
    if (x) { struct local { int p; struct local *q; } a, b; a.q = &b; b.p = 11; line(a.q->p); }
    return 0;
}
int g = 8;
