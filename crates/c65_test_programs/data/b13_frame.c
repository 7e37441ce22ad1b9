int main(void) { char a[2000]; a[0] = 1; return a[0]; }
