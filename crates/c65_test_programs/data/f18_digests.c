/* MD5 and SHA-1 of "abc", and RC4 under the key "Key", as they were published. */
#include "show.h"

typedef unsigned long word;

static unsigned char block[64];

static void byte(int n)
{
    putchar("0123456789abcdef"[n >> 4 & 15]);
    putchar("0123456789abcdef"[n & 15]);
}

static void pad(char *text)
{
    int i;

    for (i = 0; text[i]; i++)
        block[i] = text[i];
    block[i] = 128;
    block[56] = i * 8;
    block[63] = i * 8;
}

static word rotated(word n, int by)
{
    return n << by | n >> 32 - by;
}

static word sines[64] = {
    0xd76aa478, 0xe8c7b756, 0x242070db, 0xc1bdceee, 0xf57c0faf, 0x4787c62a, 0xa8304613, 0xfd469501,
    0x698098d8, 0x8b44f7af, 0xffff5bb1, 0x895cd7be, 0x6b901122, 0xfd987193, 0xa679438e, 0x49b40821,
    0xf61e2562, 0xc040b340, 0x265e5a51, 0xe9b6c7aa, 0xd62f105d, 0x02441453, 0xd8a1e681, 0xe7d3fbc8,
    0x21e1cde6, 0xc33707d6, 0xf4d50d87, 0x455a14ed, 0xa9e3e905, 0xfcefa3f8, 0x676f02d9, 0x8d2a4c8a,
    0xfffa3942, 0x8771f681, 0x6d9d6122, 0xfde5380c, 0xa4beea44, 0x4bdecfa9, 0xf6bb4b60, 0xbebfbc70,
    0x289b7ec6, 0xeaa127fa, 0xd4ef3085, 0x04881d05, 0xd9d4d039, 0xe6db99e5, 0x1fa27cf8, 0xc4ac5665,
    0xf4292244, 0x432aff97, 0xab9423a7, 0xfc93a039, 0x655b59c3, 0x8f0ccc92, 0xffeff47d, 0x85845dd1,
    0x6fa87e4f, 0xfe2ce6e0, 0xa3014314, 0x4e0811a1, 0xf7537e82, 0xbd3af235, 0x2ad7d2bb, 0xeb86d391
};
static char turns[4][4] = { { 7, 12, 17, 22 }, { 5, 9, 14, 20 }, { 4, 11, 16, 23 }, { 6, 10, 15, 21 } };

static word little(int at)
{
    return block[at] | (word) block[at + 1] << 8 | (word) block[at + 2] << 16 | (word) block[at + 3] << 24;
}

static void md5(void)
{
    static word start[4] = { 0x67452301, 0xefcdab89, 0x98badcfe, 0x10325476 };
    word a = start[0], b = start[1], c = start[2], d = start[3], f, t;
    int i, g, j;

    for (i = 0; i < 64; i++) {
        switch (i / 16) {
        case 0: f = b & c | ~b & d; g = i; break;
        case 1: f = d & b | ~d & c; g = 5 * i + 1; break;
        case 2: f = b ^ c ^ d; g = 3 * i + 5; break;
        default: f = c ^ (b | ~d); g = 7 * i;
        }
        t = d;
        d = c;
        c = b;
        b += rotated(a + f + sines[i] + little((g & 15) * 4), turns[i / 16][i & 3]);
        a = t;
    }
    start[0] += a;
    start[1] += b;
    start[2] += c;
    start[3] += d;
    for (i = 0; i < 4; i++)
        for (j = 0; j < 32; j += 8)
            byte((int) (start[i] >> j));
    putchar(10);
}

static void sha1(void)
{
    static word w[80], h[5] = { 0x67452301, 0xEFCDAB89, 0x98BADCFE, 0x10325476, 0xC3D2E1F0 };
    word v[5], t;
    int i, j;

    for (i = 0; i < 16; i++)
        for (j = 0; j < 4; j++)
            w[i] = w[i] << 8 | block[i * 4 + j];
    for (; i < 80; i++)
        w[i] = rotated(w[i - 3] ^ w[i - 8] ^ w[i - 14] ^ w[i - 16], 1);
    for (i = 0; i < 5; i++)
        v[i] = h[i];
    for (i = 0; i < 80; i++) {
        t = rotated(v[0], 5) + v[4] + w[i];
        if (i < 20)
            t += (v[1] & v[2] | ~v[1] & v[3]) + 0x5A827999;
        else if (i < 40)
            t += (v[1] ^ v[2] ^ v[3]) + 0x6ED9EBA1;
        else if (i < 60)
            t += (v[1] & v[2] | v[1] & v[3] | v[2] & v[3]) + 0x8F1BBCDC;
        else
            t += (v[1] ^ v[2] ^ v[3]) + 0xCA62C1D6;
        v[4] = v[3];
        v[3] = v[2];
        v[2] = rotated(v[1], 30);
        v[1] = v[0];
        v[0] = t;
    }
    for (i = 0; i < 5; i++) {
        h[i] += v[i];
        for (j = 24; j >= 0; j -= 8)
            byte((int) (h[i] >> j));
    }
    putchar(10);
}

static void rc4(char *key, int length, char *text)
{
    static unsigned char s[256];
    unsigned char i = 0, j = 0, t;

    do
        s[i] = i;
    while (++i);
    do {
        j += s[i] + key[i % length];
        t = s[i]; s[i] = s[j]; s[j] = t;
    } while (++i);
    for (j = 0; *text; text++) {
        j += s[++i];
        t = s[i]; s[i] = s[j]; s[j] = t;
        byte(*text ^ s[s[i] + s[j] & 255]);
    }
    putchar(10);
}

int main(void)
{
    pad("abc");
    block[63] = 0;
    md5();
    block[56] = 0;
    block[63] = 24;
    sha1();
    rc4("Key", 3, "Plaintext");
    return 0;
}
