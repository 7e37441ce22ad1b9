/* Promotions and common types of signed and unsigned operands. */
#include "show.h"

static void long_line(long n)
{
    if (n < 0) {
        putchar(45);
        n = -n;
    }
    if (n > 9)
        num((int) (n / 1000 / 10));
    num((int) (n / 1000 % 10));
    num((int) (n / 100 % 10));
    num((int) (n / 10 % 10));
    num((int) (n % 10));
    putchar(10);
}

int main(void)
{
    unsigned char uc = 200;
    signed char sc = -56;
    unsigned u = 65535u;
    int i = -1;
    long l = -1;
    unsigned long ul = 0xFFFFFFFF;
    unsigned short us = 65535u;

    line(uc == sc);
    line(uc == (unsigned char) sc);
    line((signed char) uc == sc);
    line(u == i);
    line(i < u);
    line(i < 1u);
    line(u < l);
    line(l < u);
    line(l == ul);
    line(l < 0ul);
    long_line(us + 1);
    long_line(us * us);
    long_line(us + 1L);
    long_line(uc + uc);
    long_line((unsigned char) (uc + uc));
    long_line(~uc);
    long_line(~u);
    long_line(-u);
    long_line(-(long) u);
    long_line(!u);
    long_line(7u - 10);
    long_line((7u - 10) / 2);
    long_line((7 - 10) / 2);
    long_line(-7 / 2 * 10 + -7 % 2);
    long_line(7 / -2 * 10 + 7 % -2);
    long_line(1 ? -1 : 0u);
    long_line(1 ? -1 : 0L);
    long_line((int) 40000L);
    long_line((unsigned) -30000L);
    long_line((char) 300);
    long_line(0x8000);
    long_line(-0x8000);
    long_line(-32768);
    long_line(32768 - 1);
    long_line(0177777 + 1);
    long_line(65535 + 1);
    long_line(0xFFFF >> 4);
    long_line(1u << 15);
    long_line(((unsigned) uc << 8) >> 8);
    long_line(sizeof(-32768) * 1000 + sizeof 0x8000 * 100 + sizeof 'a' * 10 + sizeof(uc + uc));
    long_line(sizeof(1 ? uc : sc) * 100 + sizeof(u + l) * 10 + sizeof(us << 1L));
    u = 3;
    u -= 5;
    long_line(u);
    uc += 100;
    long_line(uc);
    sc -= 100;
    long_line(sc);
    uc = 1;
    uc <<= 9;
    long_line(uc);
    i = -5;
    i /= 2u;
    long_line(i);
    i = -5;
    i %= 3;
    long_line(i);
    sc = -128;
    sc /= 2L;
    long_line(sc);
    return 0;
}
