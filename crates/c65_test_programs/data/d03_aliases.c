#include "show.h"

struct pair { char a; int b; char c; };
union view { long l; int i[2]; unsigned char c[4]; struct pair p; };
int main(void)
{
    union view v; struct pair s[3], *p = s; char *c; int i; int grid[3][2], *g = &grid[0][0], (*row)[2] = grid;
    v.l = 0x01020304L; line(v.c[0]); line(v.c[3]); v.c[1] = 9; line((int)(v.l >> 8 & 0xff));
    for (i = 0; i < 3; i++, p++) { p->a = 'a' + i; p->b = i * 100; p->c = 'z' - i; }
    line(p - s); p = &s[2]; line((*p).b); line((--p)->b); line(s->a); line((s + 2)->c); line(p[1].a); line((&s[1])[-1].c);
    for (i = 0; i < 6; i++) *g++ = i * i; line(grid[2][1]); line(row[1][0]); row++; line(**row); line((*(row + 1))[1]); line(*(*(grid + 1) + 1));
    c = (char *)&s[1]; line(*c); { void *q = c; struct pair *r = (struct pair *)q; line(r->b); }
    { int n = 0, *a = &n, **b = &a, ***d = &b; ***d = 12; line(n); **d = 0; line(a == 0); }
    { const char *const names[] = { "x", "yy" }; const char *const *q = names; line(q[1][1]); line(*(*q)); q++; line(q - names); }
    return 0;
}
