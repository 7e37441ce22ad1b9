/* stdlib.h: memory (C90 7.10.3). */
#include <stdlib.h>
#include <string.h>
#include "show.h"

/* How many blocks of this size the heap has left; they are freed again, every second one first. */
static int room(size_t size)
{
    static char *blocks[250];
    int count = 0, i;

    while (count < 250 && (blocks[count] = malloc(size)) != NULL) {
        memset(blocks[count], count, size);
        ++count;
    }
    for (i = 0; i < count; ++i)
        if (blocks[i][0] != (char)i || blocks[i][size - 1] != (char)i)
            show("a block is overwritten", i);
    for (i = 0; i < count; i += 2)
        free(blocks[i]);
    for (i = 1; i < count; i += 2)
        free(blocks[i]);
    return count;
}

static int is_zero(const char *p, size_t size)
{
    while (size--)
        if (*p++)
            return 0;
    return 1;
}

static void grow(void)
{
    char *p = realloc(NULL, 4), *q;

    strcpy(p, "abc");
    q = malloc(10);
    p = realloc(p, 100);
    show_text("realloc keeps", p);
    memset(p, 'x', 100);
    p = realloc(p, 3);
    show("realloc to less", p[0] == 'x' && p[2] == 'x');
    show("realloc to too much", realloc(p, 60000U) == NULL && p[0] == 'x');
    show("realloc to nothing", realloc(p, 0) == NULL);
    free(q);
}

int main(void)
{
    char *p, *q;

    show("all at once", (p = malloc(HEAP_SIZE - 2)) != NULL);
    show("and no more", malloc(1) == NULL);
    free(p);
    show("a byte too many", malloc(HEAP_SIZE - 1) == NULL);
    show("far too many", malloc(65535U) == NULL);
    show("blocks of 8", room(8));
    show("blocks of 98", room(98));
    show("blocks of 1", room(1) >= 100);
    p = malloc(0);
    q = malloc(0);
    show("two of no bytes differ", p != q);
    free(q);
    free(p);
    free(NULL);
    p = malloc(20);
    memset(p, 1, 20);
    free(p);
    show("calloc is zero", is_zero(p = calloc(5, 4), 20));
    free(p);
    show("calloc of too much", calloc(256, 257) == NULL && calloc(32768U, 2) == NULL);
    show("calloc of none", (p = calloc(0, 9)) != NULL);
    free(p);
    grow();
    show("all is free again", (p = malloc(HEAP_SIZE - 2)) != NULL);
    return 0;
}
