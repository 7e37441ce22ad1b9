#include "show.h"

static int calls;
static int t(int v) { calls++; return v; }
int main(void)
{
    int i = 0, a[4] = { 5, 6, 7, 8 }, *p = a;
    line(t(0) && t(1)); line(calls); line(t(1) || t(1)); line(calls); line(t(0) || t(2)); line(calls);
    line(t(1) ? t(10) : t(20)); line(calls); line((t(1), t(2), t(3))); line(calls);
    line(sizeof(t(1)) == sizeof(int)); line(calls);
    line(*p++); line(*++p); line(++*p); line((*p)++); line(*p); line(p - a); line(--*--p); line(p - a);
    while (i++ < 3) if (i == 2) continue; else line(i);
    line(i); do if (i-- == 2) break; while (i); line(i);
    { char s[] = "abc", d[4], *q = s, *r = d; while ((*r++ = *q++) != 0) ; puts(d); line(q - s); }
    line(!i == 0); line(-(-3)); line(~~5); line(!!7); line(- -4); line(+5);
    i = 3; i = i++ + 1 > 3 ? i : -i; line(i);
    return 0;
}
