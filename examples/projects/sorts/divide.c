/* Sorting by parts: quicksort with a stack of its own, merging from the bottom up, and the library's heap. */
#include <stdlib.h>
#include <string.h>
#include "sorts.h"

static void swap(char *a, char *b, size_t size)
{
    char held[ELEMENT_SIZE];

    memcpy(held, a, size);
    memcpy(a, b, size);
    memcpy(b, held, size);
}

/* Puts an element of the middle where all before it are no greater and all behind it no less. */
static char *divide(char *first, char *last, size_t size, comparison *compare)
{
    char *place = first, *at;

    swap(first + (last - first) / (int)size / 2 * size, last, size);
    for (at = first; at != last; at += size)
        if (compare(at, last) < 0) {
            if (at != place)
                swap(at, place, size);
            place += size;
        }
    swap(place, last, size);
    return place;
}

void quick_sort(void *base, size_t count, size_t size, comparison *compare)
{
    char *waiting[16][2]; /* the greater part waits, so that 16 are enough for 65,536 elements */
    char *first = base, *last = first + (count - 1) * size, *middle;
    int depth = 0;

    if (count < 2)
        return;
    for (;;) {
        if (first >= last) {
            if (!depth--)
                return;
            first = waiting[depth][0];
            last = waiting[depth][1];
            continue;
        }
        middle = divide(first, last, size, compare);
        if (middle - first < last - middle) {
            waiting[depth][0] = middle + size;
            waiting[depth++][1] = last;
            last = middle == first ? first : middle - size;
        } else {
            waiting[depth][0] = first;
            waiting[depth++][1] = middle == first ? first : middle - size;
            first = middle == last ? last : middle + size;
        }
    }
}

/* Merges two runs that stand behind each other; offsets in bytes. */
static void merge(char *to, const char *from, size_t low, size_t middle, size_t high, size_t size, comparison *compare)
{
    size_t a = low, b = middle, at;

    for (at = low; at < high; at += size)
        if (a < middle && (b >= high || compare(from + a, from + b) <= 0)) {
            memcpy(to + at, from + a, size);
            a += size;
        } else {
            memcpy(to + at, from + b, size);
            b += size;
        }
}

static size_t least(size_t a, size_t b)
{
    return a < b ? a : b;
}

void merge_sort(void *base, size_t count, size_t size, comparison *compare)
{
    size_t end = count * size, run, low;
    char *first = base, *other = malloc(end), *from = first, *to = other, *held;

    if (!other)
        return;
    for (run = size; run < end; run *= 2) {
        for (low = 0; low < end; low += 2 * run)
            merge(to, from, low, least(low + run, end), least(low + 2 * run, end), size, compare);
        held = from;
        from = to;
        to = held;
    }
    if (from != first)
        memcpy(first, from, end);
    free(other);
}

void heap_sort(void *base, size_t count, size_t size, comparison *compare)
{
    qsort(base, count, size, compare);
}
