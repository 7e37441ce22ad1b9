#include "show.h"

static void show(long n) { char b[12]; int i = 0; if (n < 0) { putchar('-'); n = -n; } do { b[i++] = '0' + (int)(n % 10); n /= 10; } while (n); while (i) putchar(b[--i]); putchar(10); }
static long fact(int n) { return n < 2 ? 1L : n * fact(n - 1); }
static unsigned long power(unsigned long b, int n) { unsigned long r = 1; while (n) { if (n & 1) r *= b; b *= b; n >>= 1; } return r & 0x7fffffffUL; }
static long gcd(long a, long b) { return b == 0 ? a : gcd(b, a % b); }
static unsigned crc(const char *s) { unsigned long c = 0xffffUL; int i; while (*s) { c ^= (unsigned long)(*s++) << 8; for (i = 0; i < 8; i++) c = c & 0x8000UL ? (c << 1 ^ 0x1021UL) & 0xffffUL : c << 1 & 0xffffUL; } return (unsigned)c; }
int main(void)
{
    long s = 0, v[3]; int i; unsigned long r = 12345UL; long *p = v;
    show(fact(10)); show((long)power(3UL, 13)); show(gcd(1234567L, 7654321L)); show(gcd(1000000L, 48L));
    for (i = 1; i <= 1000; i++) s += (long)i * i; show(s);
    *p++ = 100000L; *p = -v[0]; v[2] = *p-- / 7; show(v[1]); show(v[2]); show(p - v); show(++*p); show((*p)--); show(*p);
    for (i = 0; i < 5; i++) { r = r * 1103515245UL + 12345UL; r &= 0x7fffffffUL; } show((long)r);
    show((long)crc("123456789")); show(-7L / 2); show(-7L % 3); show(7L % -3); show(-1L >> 4); show(1L << 30); s = 5; s <<= 3; s |= 7; s ^= 2; s %= 11; show(s); show(!s); show(s ? 2L : 3); show(s == 1L); show((char)s);
    return 0;
}
