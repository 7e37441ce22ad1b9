#include "show.h"

struct flags { unsigned a : 3; unsigned b : 5; int c : 4; signed int d : 4; unsigned : 0; unsigned e : 9; };
struct flags f;
int main(void)
{
    struct flags l;
    f.a = 7; f.b = 21; f.c = 9; f.d = -3; f.e = 300;
    line(f.a); line(f.b); line(f.d); line(f.e);
    f.a++; line(f.a); f.b += 20; line(f.b); f.e ^= 1; line(f.e); f.d >>= 1; line(f.d);
    l = f; l.a = 5; line(l.a + f.a); line(l.e);
    f.a = f.b = 3; line(f.a * 10 + f.b);
    return 0;
}
