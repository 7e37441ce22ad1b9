int main(void) { register int r = 1; int i; char c[500], d[521]; c[0] = d[0] = i = r; return c[0]; }
