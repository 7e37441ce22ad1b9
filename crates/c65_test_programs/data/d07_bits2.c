#include "show.h"

struct f { unsigned a : 1; unsigned b : 7; unsigned c : 8; unsigned d : 11; signed int e : 5; char after; };
struct f v[2], *p = v;
static int flip(struct f *q) { q->a ^= 1; return q->a; }
int main(void)
{
    struct f w;
    int i;
    p->b = 127; p->c = 200; p->d = 2000; p->e = -16; p->after = 'x'; line(p->b); line(p->c); line(p->d); line(p->e); line(p->after);
    line(flip(p)); line(flip(p)); p++; for (i = 0; i < 10; i++) p->d += 300; line(p->d); line(p->e--); line(p->e); p->e = 15; line(++p->e);
    w = v[0]; w.c++; w.c <<= 1; line(w.c); line(v[0].c); line(w.b == v[0].b && w.d == v[0].d); line(w.a ? 1 : w.b > 100); v[1] = w; line(v[1].c); line((v[1].b = 300));
    line(w.b & 15); line(w.d % 7); line(-w.b); line(w.e * 2); i = w.b; line(i);
    return 0;
}
