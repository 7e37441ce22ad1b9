/* Three ways to sort: by insertion, by Shell's gaps, and quickly. */
#include <stdio.h>

#define COUNT 300

static int items[COUNT];
static unsigned seed;

static void fill(void)
{
    int i;

    seed = 12345;
    for (i = 0; i < COUNT; i++) {
        seed = seed * 25173u + 13849u;
        items[i] = (int)(seed >> 3) - 4000;
    }
}

static void by_insertion(int n)
{
    int i, j, item;

    for (i = 1; i < n; i++) {
        item = items[i];
        for (j = i; j > 0 && items[j - 1] > item; j--)
            items[j] = items[j - 1];
        items[j] = item;
    }
}

static void by_gaps(int n)
{
    int gap, i, j, item;

    for (gap = n / 2; gap > 0; gap /= 2)
        for (i = gap; i < n; i++) {
            item = items[i];
            for (j = i - gap; j >= 0 && items[j] > item; j -= gap)
                items[j + gap] = items[j];
            items[j + gap] = item;
        }
}

static void quickly(int *first, int *last)
{
    int *low = first, *high = last, middle, item;

    if (first >= last)
        return;
    middle = first[(last - first) / 2];
    do {
        while (*low < middle)
            low++;
        while (*high > middle)
            high--;
        if (low <= high) {
            item = *low;
            *low++ = *high;
            *high-- = item;
        }
    } while (low <= high);
    quickly(first, high);
    quickly(low, last);
}

static unsigned check(int n)
{
    unsigned sum = 0;
    int i;

    for (i = 1; i < n; i++) {
        if (items[i - 1] > items[i])
            putchar('!');
        sum = sum * 3u + (unsigned)items[i];
    }
    return sum;
}

static void print(unsigned n)
{
    if (n >= 10)
        print(n / 10);
    putchar('0' + (int)(n % 10));
}

int main(void)
{
    fill();
    by_insertion(100);
    print(check(100));
    putchar('\n');
    fill();
    by_gaps(COUNT);
    print(check(COUNT));
    putchar('\n');
    fill();
    quickly(items, items + COUNT - 1);
    print(check(COUNT));
    putchar('\n');
    return items[0] == -3992 ? 0 : (items[0] & 127);
}
