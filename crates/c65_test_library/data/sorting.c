/* stdlib.h: qsort and bsearch (C90 7.10.5). */
#include <stdlib.h>
#include <string.h>
#include "show.h"

struct row {
    signed char key;
    char name[2];
};

static int numbers[40];
static int compared;

static int by_number(const void *a, const void *b)
{
    int x = *(const int *)a, y = *(const int *)b;

    ++compared;
    return (x > y) - (x < y);
}

static int falling(const void *a, const void *b)
{
    return by_number(b, a);
}

static int by_byte(const void *a, const void *b)
{
    return *(const unsigned char *)a - *(const unsigned char *)b;
}

static int by_key(const void *a, const void *b)
{
    return ((const struct row *)a)->key - ((const struct row *)b)->key;
}

static int by_text(const void *a, const void *b)
{
    return strcmp(*(char *const *)a, *(char *const *)b);
}

static int is_sorted(int count)
{
    int i;

    for (i = 1; i < count; ++i)
        if (numbers[i - 1] > numbers[i])
            return 0;
    return 1;
}

/* Fills by a rule, sorts, and shows whether order and sum are right. */
static void sort_made(int count, int step, int modulus)
{
    int i, sum = 0;

    for (i = 0; i < count; ++i)
        sum += numbers[i] = i * step % modulus - modulus / 2;
    qsort(numbers, count, sizeof(int), by_number);
    for (i = 0; i < count; ++i)
        sum -= numbers[i];
    show("qsort", is_sorted(count) && sum == 0);
}

static void few(void)
{
    int i;

    numbers[0] = 7;
    numbers[1] = -7;
    compared = 0;
    qsort(numbers, 0, sizeof(int), by_number);
    qsort(numbers, 1, sizeof(int), by_number);
    show("qsort of 0 and 1 compares", compared);
    show("qsort of 1 leaves", numbers[0]);
    qsort(numbers, 2, sizeof(int), by_number);
    show("qsort of 2", numbers[0]);
    numbers[2] = -32767 - 1;
    qsort(numbers, 3, sizeof(int), falling);
    for (i = 0; i < 3; ++i)
        show("qsort falling", numbers[i]);
}

static void others(void)
{
    static char letters[] = "the quick brown fox";
    static struct row rows[] = { { 3, "c" }, { -100, "l" }, { 100, "g" }, { 0, "z" } };
    static const char *words[] = { "pear", "fig", "apple", "quince", "figs", "" };
    int i;

    qsort(letters, strlen(letters), 1, by_byte);
    show_text("qsort bytes", letters);
    qsort(rows, 4, sizeof(struct row), by_key);
    for (i = 0; i < 4; ++i)
        show(rows[i].name, rows[i].key);
    qsort(words, 6, sizeof(char *), by_text);
    for (i = 0; i < 6; ++i)
        show_text("qsort words", words[i]);
}

static void search(int key, int count)
{
    int *found = bsearch(&key, numbers, count, sizeof(int), by_number);

    show("bsearch", found ? found - numbers : -1);
}

int main(void)
{
    int i;

    few();
    others();
    sort_made(40, 1, 40);
    sort_made(40, 39, 40);
    sort_made(39, 17, 23);
    sort_made(40, 0, 9);
    for (i = 0; i < 40; ++i)
        numbers[i] = 3 * i;
    search(0, 40);
    search(117, 40);
    search(60, 40);
    search(61, 40);
    search(-1, 40);
    search(118, 40);
    search(0, 0);
    search(0, 1);
    search(3, 1);
    for (i = 0; i < 39; ++i) {
        int key = 3 * i, *found = bsearch(&key, numbers, 39, sizeof(int), by_number);

        if (found != numbers + i)
            show("bsearch misses", i);
    }
    return 0;
}
