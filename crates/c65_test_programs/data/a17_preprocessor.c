#include <stdio.h>
static void num(int n)
{
    if (n < 0) {
        putchar(45);
        if (n < -9)
            num(-(n / 10));
        putchar(48 - n % 10);
        return;
    }
    if (n > 9)
        num(n / 10);
    putchar(48 + n % 10);
}
static void line(int n)
{
    num(n);
    putchar(10);
}
#include <limits.h>
#include <stdint.h>
#define SQUARE(x) ((x) * (x))
#define JOIN(a, b) a##b
#define TEXT(a) #a
#define EMPTY
#define TWICE(f) f f
#if defined SQUARE && !defined(NOTHING) && (1 + 2 * 3 == 7)
#define YES 1
#else
#error wrong
#endif
#ifdef NOTHING
int broken(
#elif YES
static int chosen = 11;
#endif
#undef YES
#ifndef YES
static int JOIN(na, me) = 12;
#endif
int main(void)
{
    uint8_t a = 255;
    int16_t b = -5;
    uint32_t c = 100000UL;
    a++;
    line(SQUARE(3 + 1)); line(chosen); line(name EMPTY); puts(TEXT(a + "b")); TWICE(line(1);)
    line(CHAR_BIT); line(UCHAR_MAX); line(SCHAR_MIN); line(a); line(b); line(c == 100000UL); line(__LINE__);
    return 0;
}
