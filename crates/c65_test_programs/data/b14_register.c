int main(void) { register int i; register char *p = "abc"; int n = 0; for (i = 0; p[i]; i++) n += p[i]; return n; }
