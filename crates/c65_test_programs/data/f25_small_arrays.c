/* Elements of arrays of at most 256 bytes: read, tested, compared and stored by their index. */
#include <stdio.h>

struct pair { unsigned char a, b; };
struct three { char c; int n; };
struct four { int m, n; };
union both { int n; unsigned char b[2]; };

static unsigned char bytes[256];
static signed char small[20];
static int words[128];
static unsigned shorts[100];
static struct pair pairs[10];
static struct three threes[9];
static struct four fours[8];
static int *pointers[4];
static union both unions[6];
static unsigned char large[300];
static long longs[12];
static int calls;
static int global = 5;

static int next(int n)
{
    calls++;
    return n + 1;
}

static void show(long n)
{
    if (n < 0) {
        putchar('-');
        n = -n;
    }
    if (n >= 10)
        show(n / 10);
    putchar((int)(n % 10) + '0');
}

static void line(const char *name, long n)
{
    printf("%s ", name);
    show(n);
    putchar('\n');
}

static void fill(void)
{
    int i;
    unsigned char c;
    long l;

    for (i = 0; i < 256; i++)
        bytes[i] = i;
    for (i = 0; i < 128; i++)
        words[i] = i * 300 - 7000;
    for (c = 0; c < 20; c++)
        small[c] = c * 13 - 100;
    for (i = 99; i >= 0; i--)
        shorts[i] = 65535u - i;
    for (l = 0; l < 10; l++) {
        pairs[l].a = l * 20;
        pairs[(int)l].b = 255 - l;
    }
    for (i = 0; i < 9; i++) {
        threes[i].c = 'a' + i;
        threes[i].n = i * -1000;
    }
    for (i = 0; i < 8; i++) {
        fours[i].m = i;
        fours[i].n = words[i * 2 + 1];
    }
    for (i = 0; i < 300; i++)
        large[i] = i % 7;
    for (i = 0; i < 12; i++)
        longs[i] = i * 100000L;
}

static void read_them(void)
{
    int i = 255, j = 3;
    unsigned u = 127;
    unsigned char c = 7;
    signed char s = 2;
    long l = 100;

    line("bytes", bytes[i] + bytes[i - 1] * 2 + bytes[j + 250]);
    line("words", (long)words[u] + words[u - 1] + words[j + c]);
    line("masks", words[i & 15] + words[(j ^ c) + s] + words[(i | j) & 31]);
    line("small", small[j] + small[c] + small[s]);
    line("shorts", shorts[l - 1] + (long)shorts[c - s]);
    line("pairs", pairs[j].a + pairs[j].b + pairs[c + 1].b);
    line("threes", threes[s].c + threes[j].n + threes[8 - j].n);
    line("fours", fours[c].m + fours[c].n + fours[c - j].n);
    line("large", large[i] + large[i + 30] + large[j]);
    line("longs", longs[c] + longs[s + j]);
    line("literal", "xyzabc"[j] + "pq"[j - 2]);
    line("calls", words[next(j)] + bytes[next(next(c))] + calls);
    line("nested", words[bytes[j]] + bytes[bytes[c] + bytes[s]]);
}

static void test_them(void)
{
    int i, n = 0;
    unsigned char c;

    for (i = 0; i < 256; i++) {
        if (bytes[i])
            n++;
        if (!words[i / 2])
            n += 1000;
    }
    line("tests", n);
    words[60] = 256;
    words[61] = 1;
    for (i = 59, n = 0; i < 63; i++) {
        words[59] = 0;
        words[62] = 0;
        if (words[i])
            n += i;
    }
    line("high", n);
    for (c = 0, n = 0; c < 100; c++) {
        n += bytes[c] == bytes[200 - c] ? 1 : 0;
        n += bytes[c] < bytes[c + 1] ? 10 : 0;
        n += bytes[c] > bytes[c / 2] ? 3 : 0;
        n += bytes[255 - c] >= bytes[c + 50] ? 7 : 0;
        n += bytes[c] <= large[c] ? 1000 : 0;
        n += bytes[c] != pairs[c % 10].b ? 2 : 0;
    }
    line("compared", n);
}

static void store_them(void)
{
    int i = 9, j = 2, k = -5, m;
    unsigned char c = 4;
    int *p = &k;

    bytes[i] = 77;
    bytes[i + 1] = global;
    bytes[j] = c;
    bytes[c] = i + j;
    bytes[i + j] = i * j + bytes[i];
    bytes[next(i)] = next(j);
    bytes[i & 3] = *p;
    words[i] = -12345;
    words[i + 1] = global;
    words[j] = k;
    words[c] = i * 100 + j;
    words[i + j] = words[i] * 3;
    words[c + 1] = *p + i;
    words[next(c) + 1] = next(k);
    words[j + 1] = words[j];
    words[j] = words[j + 1];
    words[i++] = j;
    words[i] = k++ + i;
    words[--i] = words[i + 1] - 1;
    pointers[j] = p;
    pointers[c - 1] = &words[j];
    *pointers[j] = 99;
    pairs[j].b = c;
    pairs[c].a = i - j;
    threes[j].n = words[i];
    threes[c].c = 'z';
    fours[j + 1].n = k;
    fours[c].m = pairs[j].b * 3;
    unions[j].n = 0x1234;
    unions[j].b[1] = unions[j].b[0];
    unions[j + 1].n = unions[j].n;
    for (i = 0, m = 0; i < 12; i++)
        m = m * 3 + bytes[i];
    line("stored bytes", m);
    for (i = 0, m = 0; i < 14; i++)
        m = m * 3 + words[i];
    line("stored words", m);
    line("stored pairs", pairs[2].b * 1000 + pairs[4].a);
    line("stored threes", threes[2].n + threes[4].c);
    line("stored fours", fours[3].n * 10 + fours[4].m);
    line("stored pointers", *pointers[2] + *pointers[3] + k);
    line("stored unions", unions[2].n + (long)unions[3].n);
    line("calls", calls);
}

static void count(void)
{
    int i, up = 254, down = 257, low = -2;
    int *p = &up;

    for (i = 0; i < 5; i++) {
        up++;
        down--;
        ++low;
        ++*p;
    }
    line("up", up);
    line("down", down);
    line("low", low);
    for (i = 0; i < 600; i++) {
        up++;
        --low;
        *p += 1;
        down -= 1;
    }
    line("up", up);
    line("down", down);
    line("low", low);
}

static int choose(int n)
{
    if (n > 3)
        n = 3;
    if (n < 0)
        n = 0;
    else if (n == 2)
        n = 20;
    {
        return n;
    }
}

int main(void)
{
    fill();
    read_them();
    test_them();
    store_them();
    count();
    line("chosen", choose(7) + choose(-1) + choose(2) + choose(1));
    return global;
}
