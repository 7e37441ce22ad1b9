#include "show.h"

static int fib(int n) { return n < 2 ? n : fib(n - 1) + fib(n - 2); }
static int gcd(int a, int b) { return b ? gcd(b, a % b) : a; }
static int odd(int);
static int even(int n) { return n == 0 ? 1 : odd(n - 1); }
static int odd(int n) { return n == 0 ? 0 : even(n - 1); }
static void hanoi(int n, int a, int b, int c) { if (n == 0) return; hanoi(n - 1, a, c, b); putchar(48 + a); putchar(48 + c); putchar(32); hanoi(n - 1, b, a, c); }
static int ack(int m, int n) { if (!m) return n + 1; if (!n) return ack(m - 1, 1); return ack(m - 1, ack(m, n - 1)); }
int main(void)
{
    line(fib(10)); line(gcd(252, 105)); line(even(10)); line(odd(7)); hanoi(3, 1, 2, 3); putchar(10); line(ack(2, 3));
    return 0;
}
