int f(int a, char b) { char c[1022]; c[0] = a; return c[0] + b; }
int main(void) { return f(1, 2); }
