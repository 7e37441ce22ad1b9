#include "show.h"

static int kind(int c)
{
    switch (c) {
    case 'a': case 'e': case 'i': case 'o': case 'u': return 1;
    case ' ': return 2;
    default: return 3;
    case '0': return 4;
    }
}
static int fall(int n)
{
    int r = 0;
    switch (n) {
    case 3: r += 100;
    case 2: r += 10;
    case 1: r += 1; break;
    case -1: r = -1; break;
    }
    return r;
}
static int longs(long n) { switch (n) { case 70000L: return 1; case -1L: return 2; default: return 0; } }
int main(void)
{
    char *p = "abe 0z";
    while (*p) line(kind(*p++));
    line(fall(3)); line(fall(2)); line(fall(1)); line(fall(0)); line(fall(-1));
    line(longs(70000L)); line(longs(-1)); line(longs(4464L));
    switch (5) { line(1); case 6: line(2); }
    switch (1) case 1: line(9);
    return 0;
}
