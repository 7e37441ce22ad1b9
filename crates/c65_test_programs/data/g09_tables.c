/* Tables by printf: rows with columns of a width, a sum, and a page in hexadecimal. */
#include <stdio.h>
#include <string.h>

struct item {
    const char *name;
    int count;
    unsigned long pence;
    char mark;
};

static const struct item items[] = {
    {"floppy disk", 12, 149, 'a'},
    {"joystick", 2, 1295, 'b'},
    {"printer", 1, 149900, 'c'},
    {"cassette", -3, 99, 'd'},
};

#define ITEMS (sizeof(items) / sizeof(items[0]))

/* the text of a price, in pounds and pence */
static const char *price(long pence, char *to)
{
    long pounds = pence / 100;
    int rest = (int) (pence % 100);
    char *at = to + 15;

    if (rest < 0)
        rest = -rest;
    *at = 0;
    *--at = (char) ('0' + rest % 10);
    *--at = (char) ('0' + rest / 10);
    *--at = '.';
    if (pence < 0)
        pounds = -pounds;
    do
        *--at = (char) ('0' + (int) (pounds % 10));
    while ((pounds /= 10) != 0);
    if (pence < 0)
        *--at = '-';
    return at;
}

static int rule(int width)
{
    int n = 0;

    while (n < width)
        n += printf("%c", '-');
    return n + printf("\n");
}

static unsigned sum(const unsigned char *at, unsigned n)
{
    unsigned s = 0;

    while (n--)
        s = (s << 1 | s >> 15) ^ *at++;
    return s;
}

static void page(const char *text, unsigned n)
{
    unsigned i, j;

    for (i = 0; i < n; i += 8) {
        printf("%4x:", i);
        for (j = i; j < i + 8; j++) {
            if (j < n)
                printf("%3x", (unsigned char) text[j]);
            else
                printf("%3s", "");
        }
        printf("  ");
        for (j = i; j < i + 8 && j < n; j++)
            printf("%c", text[j] < ' ' ? '.' : text[j]);
        printf("\n");
    }
}

int main(void)
{
    char to[16];
    unsigned i;
    long all = 0;

    printf("%3s%14s%6s%12s%12s\n", "", "item", "count", "each", "together");
    rule(47);
    for (i = 0; i < ITEMS; i++) {
        long cost = (long) items[i].pence * items[i].count;

        printf("%c: %13s%6d%12s", items[i].mark, items[i].name, items[i].count, price((long) items[i].pence, to));
        printf("%12s\n", price(cost, to));
        all += cost;
    }
    rule(47);
    printf("%35s%12s\n", "", price(all, to));
    printf("%u bytes, %lu pence, sum %x\n", (unsigned) strlen(items[0].name), (unsigned long) all, sum((const unsigned char *) "checked", 7));
    page("The page\nof a text\t.", 20);
    return rule(0);
}
