#include "show.h"

int v[10] = { 5, 3, 9, 1, 7, 2, 8, 6, 4, 0 };
static void bubble(int *a, int n) { int i, j; for (i = 0; i < n; i++) for (j = 0; j + 1 < n - i; j++) if (a[j] > a[j + 1]) { int t = a[j]; a[j] = a[j + 1]; a[j + 1] = t; } }
static void quick(int *a, int lo, int hi)
{
    int p, i = lo, j = hi;
    if (lo >= hi) return;
    p = a[(lo + hi) / 2];
    while (i <= j) { while (a[i] < p) i++; while (a[j] > p) j--; if (i <= j) { int t = a[i]; a[i++] = a[j]; a[j--] = t; } }
    quick(a, lo, j); quick(a, i, hi);
}
int main(void)
{
    int i, w[12];
    bubble(v, 10); for (i = 0; i < 10; i++) num(v[i]); putchar(10);
    for (i = 0; i < 12; i++) w[i] = i * 7 % 12 - 3;
    quick(w, 0, 11); for (i = 0; i < 12; i++) { num(w[i]); putchar(32); } putchar(10);
    return 0;
}
