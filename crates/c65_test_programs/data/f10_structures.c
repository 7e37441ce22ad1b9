/* Structures and unions: assignment, nesting, pointers among them. */
#include "show.h"

struct inner { int n; char text[3]; };
struct outer { struct inner one, two[2]; union { long wide; unsigned char part[4]; } u; struct outer *next; };

static struct outer a, b, c, array[3];

static void show(struct outer *s)
{
    line(s->one.n * 100 + s->two[0].n * 10 + s->two[1].n);
    putchar(s->one.text[0]);
    putchar(s->two[0].text[1]);
    putchar(s->two[1].text[2]);
    putchar(10);
    line((int) s->u.wide);
}

static struct inner *find(struct outer *s, int n)
{
    for (; s; s = s->next) {
        if (s->one.n == n)
            return &s->one;
        if (s->two->n == n)
            return s->two;
        if (s->two[1].n == n)
            return s->two + 1;
    }
    return 0;
}

int main(void)
{
    struct inner local = { 4, "xyz" };
    struct outer *p = &c;
    int i;

    a.one = local;
    a.two[1] = a.two[0] = a.one;
    a.two[0].n++;
    a.two[1].n += 2;
    a.u.wide = 0x01020304;
    show(&a);
    c = b = a;
    b.two[1].text[2] = 'Z';
    p->u.part[1] = 0;
    show(&b);
    show(p);
    array[1] = *p;
    array[0] = array[1];
    i = 2;
    array[i] = array[i - 2];
    array[2].one.n = 9;
    array[0].next = &array[2];
    line(find(array, 9)->text[1]);
    line(find(array, 7) == 0);
    line(find(array, 6) == &array[0].two[1]);
    (*(i == 2 ? &a : &b)).one.n = 77;
    line(a.one.n + b.one.n);
    (&array[1])[1].one = (*p).two[1];
    line(array[2].one.n);
    line(sizeof(struct outer));
    line((char *) &a.two[1] - (char *) &a);
    line(a.u.part[0] * 10 + a.u.part[3]);
    return 0;
}
