#include "show.h"

int m[3][4];
char s[] = "hello";
int t[] = { 3, 1, 4, 1, 5, 9, 2, 6 };
static int total(int *v, int n) { int s = 0; while (n--) s += *v++; return s; }
int main(void)
{
    int i, j, k[2][2] = { { 1, 2 }, { 3, 4 } }, z[4] = { 7 };
    char w[8] = "ab";
    for (i = 0; i < 3; i++) for (j = 0; j < 4; j++) m[i][j] = i * 10 + j;
    line(m[2][3]); line(*(*(m + 1) + 2)); line(total(m[1], 4)); line(sizeof m / sizeof(int)); line(sizeof m[0] / sizeof(int)); line(sizeof s);
    line(sizeof t / sizeof t[0]); line(total(t, 8)); line(k[1][0]); line(z[0] + z[3]);
    for (i = 0; s[i]; i++) putchar(s[i]);
    putchar(10); s[0] = 'J'; putchar(s[0]); putchar(10); line(w[1]); line(w[2]); line(w[7]);
    return 0;
}
