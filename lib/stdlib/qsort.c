/* Sorting by a heap, in place: no recursion, and about n * log n comparisons whatever the order. */
#include <stdlib.h>

typedef int comparison(const void *, const void *);

static void swap(char *a, char *b, size_t size)
{
    char c;

    while (size--) {
        c = *a;
        *a++ = *b;
        *b++ = c;
    }
}

/* Lets the element of that offset sink until none below it is greater; all counts are in bytes. */
static void sink(char *base, size_t at, size_t end, size_t size, comparison *compare)
{
    size_t below;

    while ((end - size - at) >= at + size) {
        below = 2 * at + size;
        if (end - below > size && compare(base + below, base + below + size) < 0)
            below += size;
        if (compare(base + at, base + below) >= 0)
            return;
        swap(base + at, base + below, size);
        at = below;
    }
}

void qsort(void *base, size_t count, size_t size, comparison *compare)
{
    char *first = base;
    size_t end = count * size;
    size_t at = count / 2 * size;

    if (count < 2)
        return;
    while (at) {
        at -= size;
        sink(first, at, end, size, compare);
    }
    while ((end -= size) != 0) {
        swap(first, first + end, size);
        sink(first, 0, end, size, compare);
    }
}
