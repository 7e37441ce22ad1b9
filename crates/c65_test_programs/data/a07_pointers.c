#include "show.h"

int g = 5;
static void swap(int *a, int *b) { int t = *a; *a = *b; *b = t; }
int main(void)
{
    int a = 1, b = 2, v[5], *p = v, *q, **pp = &p, i;
    swap(&a, &b); line(a); line(b);
    for (i = 0; i < 5; i++) v[i] = i * i;
    line(*p); line(p[2]); line(*(p + 3)); line(2[v]); p++; line(*p++); line(*p); line(*++p); line(p - v);
    q = v + 5; line(q - p); line(p < q); line(q > p); line(p == v + 3); line(p != q);
    **pp = 77; line(v[3]); *pp = &g; *p += 3; line(g); line(p == &g); line(!p); p = 0; line(!p);
    q = &v[4]; *q-- = 9; line(*q); line(v[4]); q -= 2; line(q - v); line(*q);
    return 0;
}
