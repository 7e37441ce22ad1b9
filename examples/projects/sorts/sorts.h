/* Five ways to sort an array of any elements in place. */
#ifndef SORTS_H
#define SORTS_H

#include <stddef.h>

typedef int comparison(const void *, const void *);

typedef void sort(void *base, size_t count, size_t size, comparison *compare);

/* Elements have at most this many bytes. */
#define ELEMENT_SIZE 32

sort insertion_sort; /* keeps the order of equal elements */
sort shell_sort;
sort quick_sort;
sort merge_sort; /* keeps it too; takes as much memory again, and does nothing where there is none */
sort heap_sort;

#endif
