/* The machine: values on one stack, addresses to return to on another, and 16 cells. */
#include <stdio.h>
#include <stdlib.h>
#include "machine.h"

#define STACK_SIZE 32
#define CELLS 16

static int stack[STACK_SIZE];
static unsigned returns[STACK_SIZE];
static int cells[CELLS];
static unsigned depth, return_depth, pc;

/* How many values an operation takes and gives. */
static const unsigned char taken[OPERATIONS] = { 0, 0, 0, 1, 2, 2, 2, 2, 2, 2, 2, 1, 1, 1, 2, 0, 1, 0, 0, 1, 0 };
static const unsigned char given[OPERATIONS] = { 0, 1, 1, 0, 1, 1, 1, 1, 1, 1, 1, 1, 2, 0, 2, 0, 0, 0, 0, 0, 0 };

static int calculate(int operation, int a, int b)
{
    switch (operation) {
    case ADD:
        return a + b;
    case SUB:
        return a - b;
    case MUL:
        return a * b;
    case DIV:
        return a / b;
    case MOD:
        return a % b;
    case LESS:
        return a < b;
    default:
        return a == b;
    }
}

static void print(int n)
{
    char digits[7];

    puts(itoa(n, digits, 10));
}

/* An operation on values; the stack has what it takes, and room for what it gives. */
static void change_values(int operation, int number)
{
    int *top = stack + depth - taken[operation];

    depth = depth - taken[operation] + given[operation];
    switch (operation) {
    case PUSH:
        top[0] = number;
        break;
    case LOAD:
        top[0] = cells[number & (CELLS - 1)];
        break;
    case STORE:
        cells[number & (CELLS - 1)] = top[0];
        break;
    case NOT:
        top[0] = !top[0];
        break;
    case DUP:
        top[1] = top[0];
        break;
    case SWAP:
        number = top[0];
        top[0] = top[1];
        top[1] = number;
        break;
    case PRINT:
        print(top[0]);
        break;
    case DROP:
        break;
    default:
        top[0] = calculate(operation, top[0], top[1]);
    }
}

/* An operation that goes elsewhere. */
static enum ending change_place(int operation, unsigned target)
{
    switch (operation) {
    case JUMP:
        pc = target;
        break;
    case JUMPZ:
        if (!stack[--depth])
            pc = target;
        break;
    case CALL:
        if (return_depth == STACK_SIZE)
            return FULL_STACK;
        returns[return_depth++] = pc;
        pc = target;
        break;
    default:
        if (!return_depth)
            return EMPTY_STACK;
        pc = returns[--return_depth];
    }
    return ENDED;
}

static void write_text(void)
{
    while (pc < CODE_SIZE && code[pc])
        putchar(code[pc++]);
    ++pc;
    putchar('\n');
}

enum ending run(unsigned long most)
{
    int operation, number = 0;
    enum ending ending;

    for (; most; --most) {
        if (pc >= CODE_SIZE - 2 || code[pc] >= OPERATIONS)
            return BAD_CODE;
        operation = code[pc++];
        if (operation == HALT)
            return ENDED;
        if (has_number(operation)) {
            number = code[pc] | code[pc + 1] << 8;
            pc += 2;
        }
        if (depth < taken[operation])
            return EMPTY_STACK;
        if (depth - taken[operation] + given[operation] > STACK_SIZE)
            return FULL_STACK;
        if ((operation == DIV || operation == MOD) && !stack[depth - 1])
            return ZERO_DIVISOR;
        if (operation == TEXT)
            write_text();
        else if (operation >= JUMP && operation <= RET) {
            if ((ending = change_place(operation, number)) != ENDED)
                return ending;
        } else
            change_values(operation, number);
    }
    return TOO_LONG;
}
