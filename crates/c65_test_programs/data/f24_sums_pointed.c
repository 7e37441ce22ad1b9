/* Bytes and words behind sums of pointers: read, tested, stored, stepped and changed; bit-fields behind them; and orders beside 0 by the sign. */
#include "show.h"

struct pair { unsigned char low; int word; unsigned a : 3, b : 5; };
struct wide { char before[29]; struct pair in[2]; };

static unsigned char bytes[300];
static signed char chars[8];
static int words[20];
static unsigned char table[6][32];
static struct pair pairs[5];
static struct wide many[3];
static unsigned base = 3;

static void fill(int n)
{
    int i;

    for (i = 0; i < n; i++)
        bytes[i] = (unsigned char)(i * 7);
    for (i = 0; i < 8; i++)
        chars[i] = (signed char)(i - 4);
    for (i = 0; i < 20; i++)
        words[i] = i * 1000 - 10000;
    for (i = 0; i < 6; i++)
        table[i][i * 5] = (unsigned char)(i + 200);
}

static void reads(unsigned char *p, int *q, int i, unsigned char c)
{
    int middle = 2;

    num(p[i]); putchar(32);
    num(p[c]); putchar(32);
    num(p[middle]); putchar(32);
    num(bytes[i + 256]); putchar(32);
    num(bytes[base]); putchar(32);
    num(chars[middle]); putchar(32);
    num(chars[i + 3]); putchar(32);
    num(q[i]); putchar(32);
    num(q[c]); putchar(32);
    num(words[middle + 9]); putchar(32);
    num(*(q + base)); putchar(32);
    num(table[i][i * 5]); putchar(32);
    num(table[middle + 1][15]); putchar(32);
    num((p + i)[middle]); putchar(10);
}

static void tests(unsigned char *p, int *q, int i)
{
    int n = 0;

    if (p[i]) n += 1;
    if (!p[i]) n += 2;
    if (p[0]) n += 4;
    if (!p[0]) n += 8;
    if (chars[i + 3]) n += 16;
    if (chars[i + 2]) n += 32;
    if (q[10]) n += 64;
    if (q[i]) n += 128;
    if (*p && q[i + 9] || !bytes[i]) n += 256;
    n += p[i] ? 512 : 1024;
    while (p[n & 15] && n < 1100)
        n++;
    num(n); putchar(10);
}

static void stores(unsigned char *p, int *q, int i)
{
    int middle = 700;
    unsigned char c = 77;

    p[i] = 9;
    p[i + 1] = c;
    q[i] = 513;
    q[i + 1] = middle;
    q[i + 2] = words[0];
    table[i][3] = 5;
    table[i + 1][base] = c;
    num(p[1]); putchar(32);
    num(p[2]); putchar(32);
    num(q[1]); putchar(32);
    num(q[2]); putchar(32);
    num(q[3]); putchar(32);
    num(table[1][3] + table[2][3]); putchar(32);
    num(p[i] = 200); putchar(32);
    num(q[i] = -3); putchar(32);
    num(chars[i] = (signed char)c); putchar(10);
}

static void changes(unsigned char *p, int *q, int i)
{
    p[i]++;
    ++p[i + 1];
    p[i + 2]--;
    p[i + 3] += 5;
    p[i + 4] ^= 255;
    q[i]++;
    q[i + 1] -= 3;
    q[i + 2] |= 256;
    q[i + 3] &= 255;
    q[i + 4] += 257;
    num(p[i]); putchar(32);
    num(p[i + 1]); putchar(32);
    num(p[i + 2]); putchar(32);
    num(p[i + 3]); putchar(32);
    num(p[i + 4]); putchar(32);
    num(q[i]); putchar(32);
    num(q[i + 1]); putchar(32);
    num(q[i + 2]); putchar(32);
    num(q[i + 3]); putchar(32);
    num(q[i + 4]); putchar(10);
}

static void structures(struct pair *p, struct wide *w, int i)
{
    p[i].low = 17;
    p[i].word = -300;
    p[i].a = 5;
    p[i].b = 19;
    p[i + 1].a = 2;
    (p + i)->word++;
    p[i].low += 4;
    w[i].in[1].low = 250;
    w[i].in[1].word = 31000;
    w[i].before[i] = 65;
    w[i].in[i].low++;
    w[i].in[i].word -= 1000;
    num(p[i].low); putchar(32);
    num(p[i].word); putchar(32);
    num(p[i].a); putchar(32);
    num(p[i].b); putchar(32);
    num(p[i + 1].a); putchar(32);
    num(w[i].in[1].low); putchar(32);
    num(w[i].in[1].word); putchar(32);
    if (p[i].a) putchar(121);
    if (p[i].low) putchar(121);
    if (w[i].in[i - 1].low) putchar(110);
    putchar(w[i].before[1]);
    putchar(10);
}

static void signs(int n, long m, int *q)
{
    if (n < 0) putchar(49); else putchar(48);
    if (n >= 0) putchar(49); else putchar(48);
    if (n > -1) putchar(49); else putchar(48);
    if (n <= -1) putchar(49); else putchar(48);
    if (0 > n) putchar(49); else putchar(48);
    if (0 <= n) putchar(49); else putchar(48);
    if (m < 0) putchar(49); else putchar(48);
    if (m >= 0) putchar(49); else putchar(48);
    if (m > -1L) putchar(49); else putchar(48);
    if (0 > m) putchar(49); else putchar(48);
    if (n + 1 < 0) putchar(49); else putchar(48);
    if (q[4] < 0) putchar(49); else putchar(48);
    if (!(n < 0)) putchar(49); else putchar(48);
    num(n < 0); putchar(32);
    num(m >= 0); putchar(32);
}

int main(void)
{
    fill(300);
    reads(bytes, words, 1, 4);
    tests(bytes, words, 1);
    stores(bytes, words, 1);
    changes(bytes + 10, words + 5, 1);
    structures(pairs, many, 1);
    signs(0, 0, words);
    signs(1, -1, words);
    signs(-1, 65535, words);
    signs(32766, -65536, words + 10);
    signs(-32767 - 1, 32768, words + 10);
    signs(255, -32768, words);
    signs(-256, 2147483647, words);
    putchar(10);
    return 24;
}
