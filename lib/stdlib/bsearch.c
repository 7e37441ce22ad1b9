/* An element of a sorted array that is equal to a key, or NULL. */
#include <stdlib.h>

void *bsearch(const void *key, const void *base, size_t count, size_t size,
              int (*compare)(const void *, const void *))
{
    const char *first = base, *middle;
    int order;

    while (count) {
        middle = first + count / 2 * size;
        order = compare(key, middle);
        if (order == 0)
            return (void *)middle;
        if (order > 0) {
            first = middle + size;
            --count;
        }
        count /= 2;
    }
    return NULL;
}
