#include "show.h"

static int counter(void) { static int n = 10; return n++; }
static char *text(void) { static char t[4] = "xyz"; t[0]++; return t; }
int shared;
static int hidden = 3;
extern int shared;
int later;
static int use(void) { extern int later; return later + hidden; }
int later = 4;
int main(void)
{
    int n = 1;
    counter(); counter(); line(counter()); putchar(*text()); putchar(*text()); putchar(10);
    line(shared); shared = 8; line(shared); line(use());
    { int n = 2; line(n); { static int n; n++; line(n); } }
    line(n);
    { register int r = 5; auto int a = 6; line(r * a); }
    return 0;
}
