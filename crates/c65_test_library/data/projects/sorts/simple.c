/* Sorting by insertion, over gaps that shrink. */
#include <string.h>
#include "sorts.h"

/* Sorts the elements that stand a gap apart from one another; gap and end are in bytes. */
static void insert_all(char *base, size_t end, size_t gap, size_t size, comparison *compare)
{
    char held[ELEMENT_SIZE];
    size_t at, place;

    for (at = gap; at < end; at += size) {
        memcpy(held, base + at, size);
        for (place = at; place >= gap && compare(base + place - gap, held) > 0; place -= gap)
            memcpy(base + place, base + place - gap, size);
        memcpy(base + place, held, size);
    }
}

void insertion_sort(void *base, size_t count, size_t size, comparison *compare)
{
    insert_all(base, count * size, size, size, compare);
}

void shell_sort(void *base, size_t count, size_t size, comparison *compare)
{
    static const unsigned char gaps[] = { 132, 57, 23, 10, 4, 1 };
    unsigned i;

    for (i = 0; i < sizeof gaps; ++i)
        if (gaps[i] < count)
            insert_all(base, count * size, gaps[i] * size, size, compare);
}
