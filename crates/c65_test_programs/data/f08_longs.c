/* Arithmetic of 32 bits, on published test vectors among others. */
#include "show.h"

typedef unsigned long word;

static void hex(word n)
{
    int shift;

    for (shift = 28; shift >= 0; shift -= 4)
        putchar("0123456789abcdef"[n >> shift & 15]);
    putchar(10);
}

static word crc32(char *text)
{
    word crc = 0xFFFFFFFF;
    int bit;

    while (*text) {
        crc ^= *text++ & 255;
        for (bit = 0; bit < 8; bit++)
            crc = crc & 1 ? crc >> 1 ^ 0xEDB88320 : crc >> 1;
    }
    return ~crc;
}

static unsigned crc16(char *text)
{
    unsigned crc = 0xFFFF;
    int bit;

    for (; *text; text++) {
        crc ^= (unsigned) *text << 8;
        for (bit = 0; bit < 8; bit++)
            crc = crc & 0x8000 ? crc << 1 ^ 0x1021 : crc << 1;
    }
    return crc;
}

static word adler32(char *text)
{
    word a = 1, b = 0;

    while (*text) {
        a = (a + *text++) % 65521;
        b = (b + a) % 65521;
    }
    return b << 16 | a;
}

static word fnv1a(char *text)
{
    word hash = 2166136261;

    while (*text) {
        hash ^= *text++;
        hash *= 16777619;
    }
    return hash;
}

static void tea(word v[2], word key[4])
{
    word sum = 0;
    int round;

    for (round = 0; round < 32; round++) {
        sum += 0x9E3779B9;
        v[0] += (v[1] << 4) + key[0] ^ v[1] + sum ^ (v[1] >> 5) + key[1];
        v[1] += (v[0] << 4) + key[2] ^ v[0] + sum ^ (v[0] >> 5) + key[3];
    }
}

static word root(word n)
{
    word bit = 1ul << 30, result = 0;

    while (bit > n)
        bit >>= 2;
    for (; bit != 0; bit >>= 2)
        if (n >= result + bit) {
            n -= result + bit;
            result = (result >> 1) + bit;
        } else
            result >>= 1;
    return result;
}

int main(void)
{
    static word value[2], key[4];
    word n = 1;
    long factorial = 1;
    int i;

    hex(crc32("123456789"));
    hex(crc16("123456789"));
    hex(adler32("Wikipedia"));
    hex(fnv1a("foobar"));
    tea(value, key);
    hex(value[0]);
    hex(value[1]);
    hex(root(4294967295));
    hex(root(99980001));
    for (i = 1; i <= 12; i++)
        factorial *= i;
    hex(factorial);
    for (i = 0; i < 5; i++)
        n = n * 1103515245 + 12345;
    hex(n);
    hex(4294967295 / 65537);
    hex(4294967295 % 65537);
    hex(-2147483647L / 1000);
    hex(-2147483647L % 1000);
    hex(-1L >> 31);
    hex(0x80000000 >> 31);
    hex((word) -1 - 0x12345678 << 4);
    return 0;
}
