/* Memory from a heap of HEAP_SIZE bytes, which `-D HEAP_SIZE=N` sets: the first free block that is large enough.
   A block begins with its size. Free blocks are a list in the order of their addresses, and no two of them touch. */
#include <stdlib.h>
#include <string.h>

#ifndef HEAP_SIZE
#define HEAP_SIZE 8192
#endif

struct block {
    size_t size;        /* of all its bytes */
    struct block *next; /* of a free block */
};

#define HEADER sizeof(size_t)

static char heap[HEAP_SIZE];
static struct block *first_free;
static char is_ready;

static void prepare(void)
{
    first_free = (struct block *)heap;
    first_free->size = HEAP_SIZE;
    first_free->next = NULL;
    is_ready = 1;
}

/* Takes so many bytes of a free block, and all where no block would be left. */
static void *take(struct block **link, size_t size)
{
    struct block *block = *link, *rest;

    if (block->size - size < sizeof(struct block))
        *link = block->next;
    else {
        rest = (struct block *)((char *)block + size);
        rest->size = block->size - size;
        rest->next = block->next;
        *link = rest;
        block->size = size;
    }
    return (char *)block + HEADER;
}

void *malloc(size_t size)
{
    struct block **link;

    if (!is_ready)
        prepare();
    if (size > HEAP_SIZE)
        return NULL;
    size += HEADER;
    if (size < sizeof(struct block))
        size = sizeof(struct block);
    for (link = &first_free; *link; link = &(*link)->next)
        if ((*link)->size >= size)
            return take(link, size);
    return NULL;
}

/* Joins a free block and the next one, where they touch. */
static void join(struct block *block)
{
    struct block *next = block->next;

    if ((char *)block + block->size == (char *)next) {
        block->size += next->size;
        block->next = next->next;
    }
}

void free(void *p)
{
    struct block *block, *before = NULL, *next;

    if (!p)
        return;
    block = (struct block *)((char *)p - HEADER);
    for (next = first_free; next && next < block; next = next->next)
        before = next;
    block->next = next;
    join(block);
    if (before) {
        before->next = block;
        join(before);
    } else
        first_free = block;
}

void *calloc(size_t count, size_t size)
{
    void *p;

    if (size && count > HEAP_SIZE / size)
        return NULL;
    p = malloc(count * size);
    return p ? memset(p, 0, count * size) : NULL;
}

void *realloc(void *p, size_t size)
{
    size_t old;
    void *wider;

    if (!p)
        return malloc(size);
    if (!size) {
        free(p);
        return NULL;
    }
    old = ((struct block *)((char *)p - HEADER))->size - HEADER;
    if (size <= old)
        return p;
    wider = malloc(size);
    if (wider) {
        memcpy(wider, p, old);
        free(p);
    }
    return wider;
}
