#include "show.h"

int a[2][3] = { 1, 2, 3, 4 };
int b[][2] = { { 1 }, { 2, 3 }, 4 };
char *names[] = { "zero", "one", "two" };
char grid[2][4] = { "abc", "de" };
struct s { int x; char c[3]; struct { int p, q; } in; } v[2] = { { 1, "ab", { 2, 3 } }, 4, 'x', 'y', 'z', 5, 6 };
int *pa = &a[1][0];
char *mid = "hello" + 2;
int n = 3 * 4 + (1 ? 5 : 6);
int *pn = &n;
int main(void)
{
    struct s l = { 7, { 'q' }, { 8 } };
    int i, x = 2, y[3] = { 1 , 2 };
    char t[] = { 'o', 'k', 0 };
    line(a[0][2]); line(a[1][0]); line(a[1][2]); line(b[0][1]); line(b[1][1]); line(b[2][0]); line(sizeof b / sizeof b[0]);
    for (i = 0; i < 3; i++) { char *s = names[i]; while (*s) putchar(*s++); putchar(32); }
    putchar(10); putchar(grid[1][1]); line(grid[1][2]); line(v[0].in.q); putchar(v[1].c[2]); line(v[1].in.q);
    line(*pa); putchar(*mid); line(n); line(*pn); line(l.x); line(l.c[0]); line(l.c[1]); line(l.in.p); line(l.in.q);
    line(x + y[1] + y[2]); putchar(t[0]); putchar(t[1]); putchar(10);
    return 0;
}
