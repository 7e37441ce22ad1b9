/* A stack of numbers: the file that has it. */
#include "stack.h"

static int values[STACK_SIZE];
int stack_depth;

int push(int value)
{
    if (stack_depth == STACK_SIZE)
        return 0;
    values[stack_depth++] = value;
    return 1;
}

int pop(void)
{
    return stack_depth ? values[--stack_depth] : 0;
}
