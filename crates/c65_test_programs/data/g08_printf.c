/* Each field of printf with its edges, and the numbers that it gives. */
#include <stdio.h>

static char long_text[301];

static int texts(void)
{
    int n = 0, i;

    n += printf("%s|%1s|%5s|%2s|\n", "", "a", "bc", "defg");
    n += printf("%c%c%3c|%c", 'x', 65 + 256, '!', 10);
    for (i = 0; i < 300; i++)
        long_text[i] = 'a' + i % 26;
    n += printf("%s\n", long_text);
    n += printf("%99s|\n", "right");
    n += printf("%%%%d%5d%%\n", 7);
    n += printf("");
    n += printf("plain\n");
    return n;
}

static int words(void)
{
    int n = 0;

    n += printf("%d %d %d %d\n", 0, 1, -1, 9);
    n += printf("%d %d %d\n", 32767, -32767, -32767 - 1);
    n += printf("%u %u %u\n", 0u, 32768u, 65535u);
    n += printf("%x %x %x %x\n", 0u, 10u, 0xABCDu, 0xFFFFu);
    n += printf("%6d|%6d|%1d|%3d|\n", 42, -42, 12345, -12345);
    n += printf("%5u|%4x|%12x|\n", 65535u, 0xFFu, 0x1000u);
    return n;
}

static int longs(void)
{
    int n = 0;

    n += printf("%ld %ld %ld\n", 0L, 1L, -1L);
    n += printf("%ld %ld\n", 2147483647L, -2147483647L - 1);
    n += printf("%lu %lu\n", 0UL, 4294967295UL);
    n += printf("%12ld|%3ld|%12lu|\n", -100000L, -100000L, 3000000000UL);
    n += printf("%ld %d %lu %u %ld\n", 65536L, 1, 65537UL, 2u, -65536L);
    return n;
}

static unsigned char narrow = 200;
static signed char below = -5;
static short half = -300;

static int promoted(void)
{
    int n = 0;
    char word[3];

    word[0] = 'o';
    word[1] = 'k';
    word[2] = 0;
    n += printf("%d %d %d %x %s\n", narrow, below, half, narrow, word);
    n += printf("%d of %d\n", printf("%s", "four"), 3);
    return n;
}

int main(void)
{
    int n = texts(), m = words(), k = longs(), j = promoted();
    int (*print)(const char *, ...) = printf;

    printf("%d %d %d %d\n", n, m, k, j);
    return print("%s, %s\n", "through", "a pointer") + (*print)("done\n");
}
