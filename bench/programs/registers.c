/* Register variables: loops over bytes and words, with counters and pointers that are marked register. */
#include <stdio.h>

static unsigned char from[256], to[256];
static unsigned words[128];

static void copy(register unsigned char *target, register const unsigned char *source, unsigned n)
{
    register unsigned left = n;

    while (left > 0) {
        *target++ = *source++;
        --left;
    }
}

static int compare(const unsigned char *a, const unsigned char *b, unsigned n)
{
    register const unsigned char *p = a;
    register const unsigned char *q = b;
    register unsigned i;

    for (i = 0; i < n; i++, p++, q++)
        if (*p != *q)
            return *p < *q ? -1 : 1;
    return 0;
}

static unsigned pack(register unsigned char *out, register const unsigned char *in, unsigned n)
{
    unsigned char *start = out;
    register unsigned char run;

    while (n > 0) {
        for (run = 1; run < n && run < 200 && in[run] == *in; run++)
            ;
        *out++ = run;
        *out++ = *in;
        in += run;
        n -= run;
    }
    return (unsigned)(out - start);
}

static unsigned sum_words(void)
{
    register unsigned *w = words;
    register unsigned sum = 0;
    register int i;

    for (i = 0; i < 128; ++i) {
        sum += *w;
        if (sum & 1)
            sum ^= *w++ << 2;
        else
            sum -= *w++ >> 1;
    }
    return sum;
}

static int longest(void)
{
    register int i, here = 0;
    int best = 0;

    for (i = 1; i < 128; i++) {
        if (words[i] > words[i - 1])
            ++here;
        else
            here = 0;
        if (here > best)
            best = here;
    }
    return best;
}

static void print(register unsigned n)
{
    if (n >= 10)
        print(n / 10);
    putchar('0' + (int)(n % 10));
}

int main(void)
{
    register unsigned i;
    unsigned total = 0, length = 0;
    int order = 0;

    for (i = 0; i < 256; i++)
        from[i] = (unsigned char)(i / 6 * 5 + (i % 37 == 0));
    for (i = 0; i < 128; i++)
        words[i] = i * i * 7u + (i << 9);
    for (i = 0; i < 12; i++) {
        copy(to, from, 256);
        order += compare(from, to, 256);
        to[17 * i]++;
        order += compare(from, to, 256);
        length += pack(to, from, 128);
        words[i * 10] += sum_words();
        total += words[i * 10] + (unsigned)longest();
    }
    print(total);
    putchar(' ');
    print(length);
    putchar(' ');
    print((unsigned)-order);
    putchar('\n');
    return (int)(length & 255);
}
