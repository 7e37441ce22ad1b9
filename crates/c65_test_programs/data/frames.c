int putchar(int c);
static void number(long n) { if (n < 0) { putchar('-'); n = -n; } if (n > 9) number(n / 10); putchar('0' + (int) (n % 10)); }
static void item(long n) { number(n); putchar(' '); }
static void end(void) { putchar('\n'); }
static long f0(int a, char b)
{
    char c[1021];
    c[0] = 1; c[1020] = 2; c[300] = 3; c[1019] = a; c[1018] = b; c[0] += c[1020]++;
    return c[0] * 10000L + c[1020] * 1000 + c[300] * 100 + c[1019] * 10 + c[1018] + a + b;
}
static long __cdecl__ f1(int a, char b)
{
    char c[1021];
    c[0] = 1; c[1020] = 2; c[300] = 3; c[1019] = a; c[1018] = b; c[0] += c[1020]++;
    return c[0] * 10000L + c[1020] * 1000 + c[300] * 100 + c[1019] * 10 + c[1018] + a + b;
}
static long f2(int a, register char b)
{
    char c[1021];
    c[0] = 1; c[1020] = 2; c[300] = 3; c[1019] = a; c[1018] = b; c[0] += c[1020]++;
    return c[0] * 10000L + c[1020] * 1000 + c[300] * 100 + c[1019] * 10 + c[1018] + a + b;
}
static long f3(register int a, char b)
{
    char c[1021];
    c[0] = 1; c[1020] = 2; c[300] = 3; c[1019] = a; c[1018] = b; c[0] += c[1020]++;
    return c[0] * 10000L + c[1020] * 1000 + c[300] * 100 + c[1019] * 10 + c[1018] + a + b;
}
static int locals(void) { register int r = 3; long l = 70000L; char pad[500]; int i = 9; char more[510]; struct { int a; char b; } z; more[509] = 1; pad[0] = 2; z.b = 5; z.a = r; l += i; return (int) (l - 70000L) + more[509] * 10 + pad[0] * 100 + z.b * 1000 + z.a + r; }
static int more(int a, ...) { char c[1020]; c[1019] = a; c[0] = 3; return c[1019] + c[0] + a; }
int main(void)
{
    item(f0(4, 5));
    item(f1(4, 5));
    item(f2(4, 5));
    item(f3(4, 5));
    item(locals());
    item(more(4)); item(more(4, 5, 6L));
    end();
    return 0;
}
