/* Steps whose value is used, loads through pointers beside values that wait, and stores through addresses that wait. */
#include "show.h"

struct pair { char tag; int count; unsigned char *at; int *place; };

static int si = 255;
static unsigned int su = 65535U;
static unsigned char sb = 255;
static signed char ss = -128;
static char sc = 'a';
static long sl = 65535L;
static int numbers[6] = { 10, 20, 30, 40, 50, 60 };
static unsigned char bytes[6] = { 1, 2, 3, 255, 5, 6 };
static int *sp = numbers;
static unsigned char *sbp = bytes;
static struct pair table[3];

static void known(void)
{
    line(si++);
    line(si);
    line(si--);
    line(si);
    line(++si);
    line(--si);
    line(su++ == 65535U);
    line(su--);
    line(su == 65535U);
    line(++su);
    line(--su == 65535U);
    line(sb++);
    line(sb--);
    line(++sb);
    line(--sb);
    line(ss--);
    line(ss);
    line(ss++);
    line(++ss);
    line(--ss);
    line(sc++);
    line(sc);
    line(--sc);
    line(*sp++);
    line(*sp);
    line(*++sp);
    line(*sp--);
    line(*--sp);
    line((int) (sp - numbers));
    line(*sbp++);
    line(*++sbp);
    line((int) (sbp - bytes));
    line(*--sbp);
    sbp--;
    line((int) (sl++ / 5));
    line((int) (--sl / 5));
}

static void automatic(int i, unsigned char b)
{
    unsigned int u = 0;
    signed char s = 127;
    int *p = numbers + 5, down = -256;
    unsigned char *q = bytes + 3;
    struct pair one;

    line(i++);
    line(i--);
    line(++i);
    line(--i);
    line(u-- == 0);
    line(u++ == 65535U);
    line(--u == 65535U);
    line(++u);
    line(b++);
    line(b--);
    line(++b);
    line(--b);
    line(s-- - 100);
    line(s++);
    line(down--);
    line(++down);
    line(*p--);
    line(*--p);
    line(*p++);
    line(*++p);
    line(*q++);
    line(*q);
    line(*--q);
    line(*--q);
    one.count = 511;
    one.tag = 7;
    line(one.count++ + one.tag++);
    line(one.count + one.tag);
    line(--one.count - --one.tag);
    if (i++ == 255 && --b == 254)
        line(i + b);
    while (u++ < 3)
        i += u;
    line(i);
}

static void quick(register int i, register unsigned char b)
{
    register int *p = numbers + 1;

    line(i++);
    line(i--);
    line(++i);
    line(--i);
    line(*p++);
    line(*++p);
    line(*p--);
    line(*--p);
    line(b++);
    line(--b);
}

static void through(struct pair *p, int *n, unsigned char *b, signed char *s)
{
    int *m = n;

    p->count = 0x7FFF - 0x7F00;
    p->tag = 9;
    p->at = bytes;
    p->place = numbers;
    line(p->count++);
    line(p->count);
    line(++p->count);
    line(p->count--);
    line(--p->count);
    line(p->tag++);
    line(--p->tag);
    line(*p->at++);
    line(*++p->at);
    line((int) (p->at - bytes));
    line(*p->place++);
    line(*p->place--);
    line(*++p->place);
    line((int) (p->place - numbers));
    *n = -1;
    line((*n)++);
    line((*n)--);
    line(++*n);
    line(--*n);
    n[1] = 256;
    line(n[1]--);
    line(n[1]);
    line(*n++);
    line(*n);
    line((int) (n - m));
    *b = 255;
    line((*b)++);
    line((*b)--);
    line(++*b);
    line(--*b);
    *s = -128;
    line((*s)--);
    line((*s)++);
    line(++*s);
    line(--*s);
    m[0] = 10;
    m[1] = 20;
}

/* Words and bytes are copied, compared and joined through two pointers. */
static int same(const char *p, const char *q)
{
    while (*p && *p == *q) {
        p++;
        q++;
    }
    return *p - *q;
}

static void copy(char *to, const char *from)
{
    while (*to++ = *from++)
        ;
}

static void move(register int *to, register int *from, register int n)
{
    while (n-- > 0)
        *to++ = *from++;
}

static int equal(const int *p, const int *q, int n)
{
    while (n--)
        if (*p++ != *q++)
            return n;
    return -1;
}

static void held(void)
{
    char text[8], *t = text;
    int more[6], *p = numbers, *q = more, n, *r;
    unsigned char few[4], *b = few;
    struct pair one, *o = &one;

    copy(text, "abcdef");
    line(same(text, "abcdef"));
    line(same("abd", text));
    line(same(text, "abcdeg"));
    for (n = 0; n < 6; n++)
        *q++ = *p++;
    line(more[0] + more[5]);
    line((int) (q - more) * 10 + (int) (p - numbers));
    line(equal(more, numbers, 6));
    for (n = 0; n < 6; n++)
        more[n] = 0;
    move(more + 1, numbers, 5);
    line(more[0] + more[1] + more[5]);
    move(more, numbers, 6);
    more[4] = 306;
    line(equal(more, numbers, 6));
    more[4] = 50;
    p = numbers;
    q = more + 5;
    line(*p++ + *q--);
    line(*p++ * 2 + *--q);
    line(*p < *q);
    line(*p++ > *q++);
    line(*p - *q);
    line(*--p - *--q);
    line(*p++ & *q);
    line(*p | *--q);
    line(*p ^ *++q);
    o->count = *p++ + 1000;
    o->at = bytes + 1;
    o->tag = *o->at++;
    line(o->count + o->tag);
    *b++ = bytes[3];
    *b++ = *o->at++;
    *b = *b;
    *b = few[0];
    line(few[0] * 2 + few[1] + (*b == *few));
    o->place = more;
    *o->place++ = *o->at++;
    *o->place++ = (*o->at)++;
    line(more[0] + more[1] + bytes[4]);
    line(--bytes[4]);
    t = text + 2;
    *t++ = *(text + 4);
    line(text[2] + (int) (t - text));
    n = 3;
    r = &n;
    r[0] = *r + *r;
    line(n);
    line(n = *r = *p++);
    p = numbers;
    line((*p++ = *q) == *q);
    line((int) (p - numbers));
    numbers[0] = 10;
}

/* Where the bytes that are read and those that are stored are the same, in whole and in part. */
static void aliases(void)
{
    static int cells[4] = { 0x0102, 0x0304, 0x0506, 0x0708 };
    int *p = cells, *q = cells, **pp = &p;
    unsigned char *b = (unsigned char *) cells;

    *p++ = *++q;
    line(cells[0] == 0x0304 && p == q);
    p = cells + 1;
    q = cells + 1;
    *p++ = *q++;
    line(cells[1] == 0x0304);
    *(int *) (b + 1) = *(int *) b;
    line(cells[0] == 0x0404 && cells[1] == 0x0303);
    *(int *) b = *(int *) (b + 1);
    line(cells[0] == 0x0304);
    *pp = cells;
    line(*(*pp)++ == 0x0304);
    line(**pp == 0x0303);
    *(*pp)++ = *cells + 1;
    line(cells[1] == 0x0305 && p == cells + 2);
    b[0] = 0xFF;
    b[1] = 0;
    line(++cells[0]);
    line(b[0] + b[1] * 2);
    line(cells[0]--);
    line(b[0] + b[1] * 2);
}

int main(void)
{
    int pair[2];
    unsigned char b;
    signed char s;

    known();
    automatic(255, 0);
    quick(-1, 99);
    through(table + 1, pair, &b, &s);
    through(table + 2, pair, &b, &s);
    held();
    aliases();
    return 0;
}
