#include "show.h"

static int many(int a, char b, long c, int *d, unsigned char e, int f, int g, int h) { return a + b * 2 + (int)c * 3 + *d * 4 + e * 5 + f * 6 + g * 7 + h * 8; }
static long last(char a, long b) { return a + b; }
static char first(long b, char a) { return a - (char)b; }
static int nested(int n) { return n > 3 ? many(n, n + 1, n + 2L, &n, n, nested(n - 1), many(1, 1, 1, &n, 1, 1, 1, 1), (int)last('a', 5L)) : n; }
static int (*pick(int n))(int) { return n ? nested : 0; }
static void out(char *p, int n) { while (n--) *p++ = 'a' + n; }
int main(void)
{
    int d = 4; char text[5]; long big = 70000L;
    line(many(1, 2, 3L, &d, 5, 6, 7, 8)); line((int)(last(100, big) - 70000L)); line(first(3L, 'z')); line(nested(5)); line(pick(1)(2)); line(pick(0) == 0);
    out(text, 4); text[4] = 0; puts(text); line((*pick(1))(3)); line(first(last(1, 2), first(1, 100)));
    return 0;
}
