#include "show.h"

struct point { int x, y; };
struct rect { struct point a, b; char tag; };
struct list { int value; struct list *next; };
typedef struct { int n; char name[6]; } item;
struct point origin = { 1, 2 };
struct rect r = { { 1, 2 }, { 3, 4 }, 'r' };
item items[] = { { 1, "one" }, { 2, "two" }, { 3, { 't', 'h', 'r' } } };
static int area(struct rect *p) { return (p->b.x - p->a.x) * (p->b.y - p->a.y); }
static int sum(struct list *p) { int s = 0; for (; p; p = p->next) s += p->value; return s; }
int main(void)
{
    struct point p, *q = &p;
    struct list a, b, c;
    struct rect copy;
    int i;
    p.x = 10; q->y = 20; line(p.x + p.y); line(area(&r)); line(r.tag);
    copy = r; copy.b.x = 11; line(area(&copy)); line(area(&r)); copy.a = p; line(copy.a.y);
    a.value = 1; a.next = &b; b.value = 2; b.next = &c; c.value = 3; c.next = 0; line(sum(&a));
    line(a.next->next->value);
    for (i = 0; i < 3; i++) { char *s = items[i].name; line(items[i].n); while (*s) putchar(*s++); putchar(10); }
    line(sizeof(struct { char a[3]; }));
    *q = origin; line(q->x); q = &r.b; line(q->y); line((&r)->a.x);
    return 0;
}
