/* Whole numbers of 32 bits: decimals, roots, divisors, powers and a hash. */
#include <stdio.h>

static void print(long n)
{
    unsigned long rest = n < 0 ? 0ul - (unsigned long)n : (unsigned long)n;
    char digits[12];
    int i = 0;

    if (n < 0)
        putchar('-');
    do {
        digits[i++] = (char)('0' + (int)(rest % 10));
        rest /= 10;
    } while (rest != 0);
    while (i > 0)
        putchar(digits[--i]);
    putchar('\n');
}

static unsigned long root(unsigned long n)
{
    unsigned long bit = 1ul << 30, result = 0;

    while (bit > n)
        bit >>= 2;
    for (; bit != 0; bit >>= 2) {
        if (n >= result + bit) {
            n -= result + bit;
            result = (result >> 1) + bit;
        } else
            result >>= 1;
    }
    return result;
}

static long common(long a, long b)
{
    long rest;

    while (b != 0) {
        rest = a % b;
        a = b;
        b = rest;
    }
    return a < 0 ? -a : a;
}

static unsigned long power(unsigned long base, unsigned exponent, unsigned long modulus)
{
    unsigned long result = 1;

    for (; exponent; exponent >>= 1) {
        if (exponent & 1)
            result = result * base % modulus;
        base = base * base % modulus;
    }
    return result;
}

static unsigned long hash(const char *s)
{
    unsigned long value = 0x811c9dc5ul;

    while (*s) {
        value ^= (unsigned char)*s++;
        value += (value << 1) + (value << 4) + (value << 7) + (value << 8) + (value << 24);
    }
    return value;
}

int main(void)
{
    long sum = 0, step = -70000;
    unsigned long word;
    int i;

    for (i = 0; i < 200; i++) {
        step = step * 3 + 100000;
        if (step > 30000000 || step < -30000000)
            step /= 4099;
        sum += step;
        if (sum < 0)
            sum = -(sum / 3);
    }
    print(sum);
    print((long)root(3999999999ul));
    print((long)(root(123456789ul) + root(65535ul)));
    print(common(1071L * 3600, -462L * 3600));
    print((long)power(7, 30000, 60013ul));
    for (i = 0; i < 12; i++)
        word = hash("a program of thirty-two bits");
    print((long)(word >> 3));
    print((long)(word & 0xffffff) - 0x800000);
    return (int)(word >> 24);
}
