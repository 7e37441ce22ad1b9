#include "show.h"

int main(void)
{
    int a = 10, b = 3, i = 0, v[4] = { 1, 2, 3, 4 };
    unsigned u = 1;
    char c = 100;
    long l = 5;
    a += b; line(a); a -= 2; line(a); a *= b; line(a); a /= 4; line(a); a %= 5; line(a);
    a <<= 4; line(a); a >>= 1; line(a); a &= 0x1c; line(a); a |= 3; line(a); a ^= 0xff; line(a);
    a = b = 7; line(a + b); v[i++] += 10; line(v[0]); line(i); v[i] = i = 3; line(v[1]); line(i);
    u <<= 10; line(u); c += 100; line(c); l += a; l *= 100; line((int)l); line(a++ + ++b); line(a-- - --b); line(a); line(b);
    a = 5; a += a += 2; line(a);
    return 0;
}
