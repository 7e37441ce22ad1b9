/* Expressions whose value is not used, on objects of each kind and place: what is kept then. */
#include "show.h"

static int word;
static unsigned int uword;
static char narrow;
static signed char snarrow;
static unsigned char unarrow;
static long wide;
static int *place;
static char *text;
static int row[6];
static char letters[6];
struct part { char c; int n; unsigned int u; int *p; char *q; struct part *next; long l; unsigned int f : 3; signed int g : 5; };
static struct part parts[3];
static union { int i; char c[2]; } both;
static int turns;

static int turn(void) { turns++; return turns; }
static int *at(int i) { turns += 10; return row + i; }

static void all(void)
{
    line(word); num((int)(uword / 10)); line((int)(uword % 10)); line(narrow); line(snarrow); line(unarrow);
    line((int)(wide / 1000)); line((int)(wide % 1000)); line((int)(place - row)); line((int)(text - letters)); line(turns);
}

static void statics(void)
{
    word = 255; word++; line(word); word--; line(word); word = -1; ++word; line(word); --word; line(word);
    word = 0x00ff; word += 1; line(word); word -= 1; line(word); word += 256; line(word); word -= 300; line(word);
    word += 1000; word -= 999; line(word); word &= 15; line(word); word |= 0x120; line(word); word ^= 0x121; line(word);
    word = 0x7f80; word &= 0xff00; line(word); word |= 0x00ff; line(word); word ^= 0xffff; line(word); word &= 0x00ff; line(word);
    uword = 65535u; uword++; line((int)uword); uword--; line((int)(uword >> 1)); uword -= 0x8000u; line((int)(uword >> 1)); uword += 0x8001u; line((int)uword);
    narrow = 127; narrow++; line((unsigned char)narrow); narrow--; line(narrow); narrow -= 128; line(narrow); narrow += 200; line((unsigned char)narrow);
    unarrow = 255; unarrow++; line(unarrow); unarrow--; line(unarrow); unarrow += 3; line(unarrow); unarrow |= 0x1f0; line(unarrow); unarrow &= 0x3c; line(unarrow); unarrow ^= 0xff; line(unarrow);
    snarrow = -128; snarrow--; line(snarrow); snarrow++; line(snarrow); snarrow -= 100; line(snarrow);
    wide = 65535L; wide++; line((int)(wide / 1000)); wide += 100000L; line((int)(wide / 1000)); wide--; wide -= 5; line((int)(wide % 1000)); wide &= 0xffffL; line((int)(wide % 1000));
    place = row; place++; ++place; place += 3; place--; --place; place -= 2; place += word; line((int)(place - row)); place = 0; line(place == 0);
    text = letters; text++; ++text; text += 3; text--; text -= 2; text += word & 1; line((int)(text - letters));
    word = 7; word += word; line(word); word -= word; line(word); word = 5; word |= word; word ^= 3; word &= word; line(word);
    uword = 300; word += uword; line(word); word -= unarrow; line(word); word += snarrow; line(word); unarrow += word; line(unarrow); unarrow -= snarrow; line(unarrow);
    word += wide; line(word); word -= wide; line(word); word += 70000L; line(word); word *= 3; line(word); word /= 7; line(word); word <<= 3; line(word); word >>= 2; line(word); word %= 10; line(word);
    word = 0; line(word); word = -1; line(word); word = 0x0101; line(word); uword = 0x4242; line((int)uword); word = 258; line(word);
    place = row + 1; text = letters; all();
}

static void locals(int p, char c, unsigned char u)
{
    int i = 255, j = 3, *q = row;
    char d = 'a', *t = letters;
    unsigned char e = 250;
    long l = -1;
    i++; line(i); i--; line(i); ++i; --i; i = -1; i++; line(i); i--; line(i); i += 1; i -= 1; i += 513; line(i); i -= 512; line(i); i += 0x1ff; line(i); i -= 0x180; line(i);
    p++; line(p); p += i; line(p); p -= i; line(p); p &= 0x0f; line(p); p |= 0x700; line(p); p ^= 0x7ff; line(p); p += j; p -= j; p &= j; line(p); p |= 64; p ^= j; line(p);
    c++; line(c); c += 2; line(c); c -= j; line(c); c--; line(c); u++; line(u); u--; u += i; line(u); u -= i; line(u); u &= 0xf0; line(u); u |= j; line(u); u ^= u; line(u);
    d++; d += j; line(d); e++; e += 10; line(e); l++; line((int)l); l--; line((int)l); l += i; line((int)l); l -= 100000L; line((int)(l / 1000));
    q++; q += 2; q -= 1; line((int)(q - row)); q += j; q -= j; line((int)(q - row)); t++; t += j; t -= 1; line((int)(t - letters));
    i = 0; line(i); i = -1; line(i); i = 0x2323; line(i); i = 0x2324; line(i); q = 0; line(q == 0); d = 0; line(d); l = 0; line((int)l);
    i = 5; i += (j = 2); line(i); line(j); i += turn(); line(i); i -= turn(); line(i); i += (i > 3 ? 100 : 200); line(i);
    i = 1, j = 2, i++, j += i; line(i); line(j); (void)i++; line(i); (void)(j -= i, i += 4); line(i); line(j); (char)i++; line(i); (i, j++); line(j);
    for (i = 0, j = 10; i < j; i++, j--) p += i; line(p); line(i); line(j);
    for (t = letters, i = 0; i < 6; i++) *t++ = (char)(97 + i);
    for (t = letters; t < letters + 6; t++) putchar(*t); putchar(10);
}

static void behind(struct part *s, int *q, char *t, int k)
{
    int i;
    for (i = 0; i < 6; i++) row[i] = i * 85;
    row[3]++; line(row[3]); row[k]++; line(row[k]); row[k]--; --row[k]; line(row[k]); row[k] += 1000; line(row[k]); row[k] -= 3; line(row[k]); row[k] &= 0xff; line(row[k]); row[k] |= 0x300; line(row[k]); row[k] ^= 0x301; line(row[k]);
    (*q)++; line(*q); *q += 254; line(*q); *q -= 1; line(*q); --*q; line(*q); *q++; *q = 11; line(*q); q[-1] |= 1; line(q[-1]); q[2] += k; line(q[2]); q[2] -= k; line(q[2]);
    (*t)++; line(*t); t[1] += 5; line(t[1]); t[k]--; line(t[k]); *++t -= 3; line(*t); t[1] ^= 32; line(t[1]); *t++ += 1; line(*t); line(t[-1]);
    s->n = 255; s->n++; line(s->n); s->n += 0x101; line(s->n); s->n -= 2; line(s->n); s->c = 9; s->c++; --s->c; s->c += 20; line(s->c); s->u = 0; s->u--; line((int)(s->u >> 1)); s->u &= 0xf00; line((int)s->u);
    s->p = row; s->p++; s->p += 2; line((int)(s->p - row)); (*s->p)++; line(*s->p); *s->p++ += 2; line(row[3]); s->q = letters; s->q++; line(*s->q); s->l = 1; s->l++; s->l += 70000L; line((int)(s->l / 1000));
    s->f = 7; s->f++; line(s->f); s->f += 3; line(s->f); s->g = -16; s->g--; line(s->g); s->g += 2; line(s->g);
    s->next = s + 1; s->next->n = 41; s->next->n++; line(s[1].n); s->next++; line((int)(s->next - s)); (s->next - 1)->n += 5; line(s[1].n);
    parts[2].n = 3; parts[2].n++; parts[2].n += 254; line(parts[2].n); parts[2].c = 1; parts[2].c--; line(parts[2].c); parts[k].u += 600; line((int)parts[k].u);
    *at(2) += 1; line(row[2]); (*at(3))++; line(row[3]); *at(4) -= 7; line(row[4]); line(turns); at(5)[0]--; line(row[5]); row[turn() & 1]++; line(turns);
}

static void overlap(void)
{
    int i, *p = &both.i;
    char *c = both.c;
    both.i = 0x0102; both.i += both.c[0]; line(both.i); both.i -= both.c[1]; line(both.i); both.i += both.i; line(both.i); both.c[0] += (char)both.i; line(both.i);
    *p += c[0]; line(*p); *p -= *p; line(*p); c[1]++; line(*p); *p |= c[1]; line(*p); c[0] ^= c[1]; line(*p);
    i = 0x1234; p = &i; i += *p; line(i); *p += i; line(i); i -= *p; line(i); *p = i = 3; *p += 2; line(i);
}

static int many(int count, ...)
{
    count++; line(count); count += 300; line(count); count -= 45; line(count); count = 0; line(count); count--;
    return count;
}

static void registers(void)
{
    register int i = 255;
    register char *t = letters;
    register unsigned char u = 1;
    i++; line(i); i -= 256; line(i); i--; line(i); i += 500; i &= 0x1f0; line(i); t++; t += 2; line(*t); (*t)++; line(*t); u--; line(u); u--; line(u); u += i; line(u);
}

int main(void)
{
    statics();
    locals(12, 'x', 3);
    behind(parts, row + 1, letters + 1, 2);
    overlap();
    line(many(3, 1, 2, 3));
    registers();
    all();
    return 0;
}
