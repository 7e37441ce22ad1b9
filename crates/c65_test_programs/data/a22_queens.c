#include "show.h"

static int at[8], count;
static int fits(int r, int c) { int i; for (i = 0; i < r; i++) { int d = at[i] - c; if (d == 0 || d == r - i || d == i - r) return 0; } return 1; }
static void place(int r, int n) { int c; if (r == n) { count++; return; } for (c = 0; c < n; c++) if (fits(r, c)) { at[r] = c; place(r + 1, n); } }
int main(void) { place(0, 5); line(count); count = 0; place(0, 6); line(count); return 0; }
