/* Writes its input's bytes backwards, 16 at a time: compiled with stack.c. */
#include <stdio.h>
#include "stack.h"

static void empty(void)
{
    while (stack_depth)
        putchar(pop());
}

int main(void)
{
    int c;

    while ((c = getchar()) != EOF)
        if (!push(c)) {
            empty();
            push(c);
        }
    empty();
    putchar('\n');
    return 0;
}
