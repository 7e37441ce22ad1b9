#include "show.h"

static char out[100];
int main(void)
{
    int i, j, n = 0;
    for (i = 2; i < 100; i++) { if (out[i]) continue; n++; num(i); putchar(32); for (j = i * 2; j < 100; j += i) out[j] = 1; }
    putchar(10); line(n);
    return 0;
}
