/* Elements and members at places that are known when the program is compiled, and those that only look so. */
#include "show.h"

struct point { char tag; int x, y; };
struct line { struct point from, to; long length; };
struct flags { unsigned low : 3, high : 5; int next; };
union both { short words[2]; unsigned char bytes[4]; };

static char c[4] = { 1, 2, 3, 4 };
static unsigned char uc[4] = { 200, 201, 202, 203 };
static int n[4] = { -10, 20, -30, 40 };
static unsigned u[3] = { 1, 40000U, 3 };
static long l[3] = { 100000, -200000, 300000 };
static struct point p[3] = { { 'a', 1, 2 }, { 'b', 3, 4 }, { 'c', 5, 6 } };
static struct line lines[2];
static struct flags f[2];
static union both w[2];
static int rows[3][4];
static int *const middle = &n[2];

static int twice(int x)
{
    return 2 * x;
}

static int three(int x, int y, int z)
{
    return 100 * x + 10 * y + z;
}

static void numbers(void)
{
    line(c[0] + c[3] + *c + *(c + 2));
    line(uc[0] + uc[3]);
    line(n[0] + n[1] * n[2] - *(n + 3));
    line((&n[3])[-1] + *(&n[2] - 1));
    line(middle[-1] + middle[1]);
    line(u[1] > u[0]);
    line((int) (l[0] / 1000) + (int) (l[1] / 1000) + (int) (l[2] / 1000));
    line("abc"[1] + *"x" + *("yz" + 1));
    n[0] = n[1] = n[3];
    line(n[0] + n[1]);
    n[1] = 0;
    n[2] = -1;
    line(n[1] + n[2]);
    n[1] += 7;
    n[1] *= n[0];
    n[2]--;
    ++n[3];
    line(n[1] + n[2] + n[3]++);
    line(n[3]);
    c[1] += 100;
    c[2]++;
    uc[3] += 60;
    line(c[1] + c[2] + uc[3]);
    l[1] += l[0];
    l[2] -= 300001;
    line((int) (l[1] / 100) + (int) l[2]);
    if (n[1] && !l[2] + 1 && c[0] != 2 && n[0] > n[2] && uc[1] == 201)
        line(1);
    line(n[twice(1)] + twice(n[0]) + three(c[0], n[3] - 40, twice(c[3])));
}

static void structures(void)
{
    struct point *q = &p[1];

    line(p[0].x + p[1].y * p[2].x + p[2].tag);
    line((&p[1])->x + (*&p[2]).y + (p + 2)->x);
    line((q - 1)->y + q[1].y + (*q).tag);
    p[0] = p[2];
    p[1].y = p[0].x + p[0].tag;
    line(p[0].y + p[1].y);
    lines[1].to.y = 5;
    lines[1].from = p[1];
    lines[1].length = 70000;
    lines[0] = lines[1];
    line(lines[0].to.y + lines[0].from.y + (int) (lines[0].length / 7));
    f[1].high = 21;
    f[1].low = 6;
    f[1].next = -3;
    f[0] = f[1];
    f[0].low++;
    line(f[0].low * 100 + f[0].high + f[1].low + f[0].next);
    w[1].words[0] = 0x1234;
    w[1].words[1] = w[1].words[0] + 1;
    w[0] = w[1];
    w[0].bytes[1] = w[0].bytes[2];
    line(w[0].bytes[0] + w[0].bytes[1] + w[0].bytes[2] + w[0].bytes[3]);
    line(w[0].words[0] == 0x3534);
}

static void tables(int i)
{
    int square[2][2], (*row)[4] = rows + 1;

    rows[0][0] = 1;
    rows[1][2] = 12;
    rows[2][3] = 23;
    (*row)[i] = 10;
    row[1][-1] = 13;
    line(rows[1][2] + rows[1][3] + rows[2][3] + *rows[0] + **rows + rows[1][0]);
    square[0][0] = i;
    square[0][1] = square[0][0] + 1;
    square[1][0] = square[0][1] * 2;
    square[1][1] = square[1][0]-- + 3;
    line(square[0][0] * 1000 + square[0][1] * 100 + square[1][0] * 10 + square[1][1]);
}

/* At the end of what one byte tells above the stack pointer, and behind it. */
static int far(int depth)
{
    char big[300];
    int small[3];

    small[0] = depth;
    small[1] = small[0] + 1;
    small[2] = 0;
    big[0] = 1;
    big[240] = 2;
    big[243] = big[240] + 1;
    big[244] = 4;
    big[245] = big[244] + 1;
    big[246] = 6;
    big[247] = 7;
    big[248] = 8;
    big[249] = 9;
    big[250] = 10;
    big[251] = 11;
    big[252] = 12;
    big[253] = 13;
    big[254] = big[253] + 1;
    big[255] = 15;
    big[256] = 16;
    big[299] = big[255] + big[256];
    small[2] += three(big[250], three(small[0], big[252], small[1]), big[253]) + big[299];
    if (depth)
        small[2] += far(depth - 1);
    return small[2] + big[0] + big[243] + big[245] + big[246] + big[247] + big[248] + big[249] + big[251] + big[254] + small[1];
}

int main(void)
{
    numbers();
    structures();
    tables(0);
    line(far(2));
    return 0;
}
