#include "show.h"

static void ulong(unsigned long n) { if (n > 9) ulong(n / 10); putchar(48 + (int)(n % 10)); }
static void show(unsigned long n) { ulong(n); putchar(10); }
int main(void)
{
    unsigned long a = 100000UL, b = 3UL, c;
    unsigned int u = 40000u;
    long s = -70000L;
    show(a); show(a * 7UL); show(a / b); show(a % 7); show(a + 4000000000UL); show(a << 4); show(a >> 3);
    c = a; c += 5; c -= 1; c *= 2; show(c);
    c |= 1; c ^= 3; c &= 0xFFFFUL; show(c);
    show(u); show(u / 7); show(u % 1000); show(u > 30000u); show((unsigned long)u * u);
    line(s < 0); show((unsigned long)(-s)); line((int)(s / 1000)); line((int)(s % 1000)); line((int)(s >> 10));
    line(s < 5L); line(s == -70000L); line(s > -70001L); line(s <= -70000L); line(s >= 0L); line(s != 1L);
    return 0;
}
