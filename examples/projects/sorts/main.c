/* Tries each sort on arrays of several shapes: is the result in order, does it have the same elements, and does it
   keep the order of equal ones where that is promised? */
#include <stdio.h>
#include <stdlib.h>
#include <string.h>
#include "sorts.h"

#define MOST 60

struct item {
    int key;
    unsigned number; /* its place at first */
    char padding[3];
};

static struct item items[MOST];
static unsigned long compared;

static const struct {
    const char *name;
    sort *sort;
    int is_stable;
} sorts[] = {
    { "insertion", insertion_sort, 1 },
    { "shell", shell_sort, 0 },
    { "quick", quick_sort, 0 },
    { "merge", merge_sort, 1 },
    { "heap", heap_sort, 0 }
};

enum shape { RISING, FALLING, EQUAL, FEW, CHANCE, SHAPES };

static const char *const shapes[SHAPES] = { "rising", "falling", "equal", "few", "chance" };

static int by_key(const void *a, const void *b)
{
    int x = ((const struct item *)a)->key, y = ((const struct item *)b)->key;

    ++compared;
    return (x > y) - (x < y);
}

static int key_of(enum shape shape, int i)
{
    switch (shape) {
    case RISING:
        return i;
    case FALLING:
        return -i;
    case EQUAL:
        return 7;
    case FEW:
        return rand() % 5;
    default:
        return rand() - 16384;
    }
}

static void fill(enum shape shape, unsigned count)
{
    unsigned i;

    srand(count);
    for (i = 0; i < count; ++i) {
        items[i].key = key_of(shape, i);
        items[i].number = i;
        memcpy(items[i].padding, "abc", 3);
    }
}

/* What is wrong with the sorted array, or NULL. */
static const char *fault(unsigned count, int is_stable)
{
    static char is_seen[MOST];
    unsigned i;

    memset(is_seen, 0, MOST);
    for (i = 0; i < count; ++i) {
        if (i && items[i - 1].key > items[i].key)
            return "not in order";
        if (i && is_stable && items[i - 1].key == items[i].key && items[i - 1].number > items[i].number)
            return "not stable";
        if (items[i].number >= count || is_seen[items[i].number]++)
            return "other elements";
        if (memcmp(items[i].padding, "abc", 3))
            return "torn elements";
    }
    return NULL;
}

static int try(unsigned which, enum shape shape, unsigned count)
{
    const char *wrong;

    fill(shape, count);
    sorts[which].sort(items, count, sizeof items[0], by_key);
    wrong = fault(count, sorts[which].is_stable);
    if (!wrong)
        return 1;
    fputs(sorts[which].name, stdout);
    putchar(' ');
    fputs(shapes[shape], stdout);
    putchar(' ');
    puts(wrong);
    return 0;
}

static void put_padded(unsigned long n, unsigned width)
{
    char digits[11];

    ultoa(n, digits, 10);
    for (width -= strlen(digits); width; --width)
        putchar(' ');
    fputs(digits, stdout);
}

/* A row of the table: the comparisons for the most elements of each shape. */
static int show(unsigned which)
{
    static const unsigned char counts[] = { 0, 1, 2, 3, 10, MOST };
    unsigned i, good = 1;
    int shape;

    fputs(sorts[which].name, stdout);
    for (i = strlen(sorts[which].name); i < 10; ++i)
        putchar(' ');
    for (shape = 0; shape < SHAPES; ++shape) {
        for (i = 0; i < sizeof counts; ++i) {
            compared = 0;
            good &= try(which, shape, counts[i]);
        }
        put_padded(compared, 8);
    }
    putchar('\n');
    return good;
}

int main(void)
{
    unsigned i, good = 1;

    fputs("          ", stdout);
    for (i = 0; i < SHAPES; ++i) {
        unsigned width = 8 - strlen(shapes[i]);

        while (width--)
            putchar(' ');
        fputs(shapes[i], stdout);
    }
    putchar('\n');
    for (i = 0; i < sizeof sorts / sizeof sorts[0]; ++i)
        good &= show(i);
    return good ? EXIT_SUCCESS : EXIT_FAILURE;
}
