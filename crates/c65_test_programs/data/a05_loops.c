#include "show.h"

int main(void)
{
    int i, j, s = 0;
    for (i = 0; i < 10; i++) { if (i == 3) continue; if (i == 8) break; s += i; }
    line(s);
    while (i > 0) { i -= 3; s++; }
    line(s); line(i);
    do { s -= 4; } while (s > 0);
    line(s);
    for (i = 1; i <= 3; ++i) for (j = 3; j > 0; j--) { if (i == j) continue; putchar(48 + i); putchar(48 + j); putchar(32); }
    putchar(10);
    for (;;) { if (++i > 20) break; }
    line(i);
    i = 0;
again:
    i++;
    if (i < 5) goto again;
    line(i);
    return 0;
}
