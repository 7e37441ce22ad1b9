/* Tables: checks of 8 and 16 bits by table, a sieve, and a histogram. */
#include <stdio.h>

static unsigned checks[256];
static unsigned char reversed[256];
static unsigned char composite[2000];
static unsigned counts[16];
static const char digits[] = "0123456789abcdef";

static void make_tables(void)
{
    unsigned i, bit, value;

    for (i = 0; i < 256; i++) {
        value = i << 8;
        for (bit = 0; bit < 8; bit++)
            value = value & 0x8000u ? (value << 1) ^ 0x1021u : value << 1;
        checks[i] = value;
        value = 0;
        for (bit = 0; bit < 8; bit++)
            if (i & (1u << bit))
                value |= 0x80u >> bit;
        reversed[i] = (unsigned char)value;
    }
}

static unsigned check(const unsigned char *bytes, unsigned n)
{
    unsigned value = 0xffffu;

    while (n--)
        value = (value << 8) ^ checks[(value >> 8) ^ *bytes++];
    return value;
}

static int sieve(int n)
{
    int i, j, found = 0;

    for (i = 0; i < n; i++)
        composite[i] = 0;
    for (i = 2; i < n; i++) {
        if (composite[i])
            continue;
        found++;
        for (j = i + i; j < n; j += i)
            composite[j] = 1;
    }
    return found;
}

static void count(unsigned n)
{
    unsigned i, value = 1;

    for (i = 0; i < n; i++) {
        value = value * 5u + 1u;
        counts[(value >> 4) & 15u]++;
        counts[reversed[value & 255u] >> 4]++;
    }
}

static void print(unsigned n)
{
    putchar(digits[n >> 12]);
    putchar(digits[(n >> 8) & 15u]);
    putchar(digits[(n >> 4) & 15u]);
    putchar(digits[n & 15u]);
}

int main(void)
{
    int i, found;

    make_tables();
    found = sieve(2000);
    print((unsigned)found);
    putchar('\n');
    print(check(composite, 2000));
    putchar(' ');
    print(check(reversed, 256));
    putchar('\n');
    count(1500);
    for (i = 0; i < 16; i++) {
        print(counts[i]);
        putchar(i == 15 ? '\n' : ' ');
    }
    return found & 255;
}
