#include <stdio.h>
static void num(int n)
{
    if (n < 0) {
        putchar(45);
        if (n < -9)
            num(-(n / 10));
        putchar(48 - n % 10);
        return;
    }
    if (n > 9)
        num(n / 10);
    putchar(48 + n % 10);
}
static void line(int n)
{
    num(n);
    putchar(10);
}
#define f(x) x + f(x)
#define g f
#define cat(a, b) a ## b
#define xcat(a, b) cat(a, b)
#define str(x) #x
#define xstr(x) str(x)
#define N 4
#define NOTHING
#define swap(t, a, b) do { t tmp = a; a = b; b = tmp; } while (0)
#define max(a, b) ((a) > (b) ? (a) : (b))
#define LIST X(1) X(2) X(3)
#define X(n) + n
static int total = 0 LIST;
#undef X
#define X(n) num(n);
#if N > 3 && defined(N) && 'a' == 97 && (N << 2) == 16 && -1 < 0 && ~0 == -1 && 7 / 2 == 3 && (1 ? 2 : 3) == 2
static int good = 1;
#elif 1
static int good = 2;
#endif
#ifdef cat
#if 0
#error no
#else
static int xcat(va, N) = 44;
#endif
#endif
static int func(int x) { return x * 2; }
#define func(x) func(x + 1)
int main(void)
{
    int a = 1, b = 2, f = 100;
    line(total); LIST putchar(10); line(good); line(va4); swap(int, a, b); line(a * 10 + b); line(max(a, b)); line(func(3)); line((func)(3));
    puts(xstr(N)); puts(str(N)); puts(str( a  +  "b\n" )); line(g NOTHING + 1); puts(xstr(cat(1, 2)));
#line 500
    line(__LINE__);
    puts("a\
b");
    line(/* comment */ 6 // to the end
    );
    return 0;
}
