/* Words on numbers, and output. */
#include <stdio.h>
#include <stdlib.h>
#include "forth.h"

static void add(void) { int b = pop(); push(pop() + b); }
static void subtract(void) { int b = pop(); push(pop() - b); }
static void multiply(void) { int b = pop(); push(pop() * b); }
static void less(void) { int b = pop(); push(-(pop() < b)); }
static void greater(void) { int b = pop(); push(-(pop() > b)); }
static void equal(void) { push(-(pop() == pop())); }
static void is_zero(void) { push(-(pop() == 0)); }
static void both(void) { push(pop() & pop()); }
static void either(void) { push(pop() | pop()); }
static void negate(void) { push(-pop()); }
static void drop(void) { pop(); }
static void show_depth(void) { push(depth()); }

static void divide(void)
{
    int b = pop(), a = pop();

    if (b)
        push(a / b);
    else
        fail("division by zero");
}

static void modulo(void)
{
    int b = pop(), a = pop();

    if (b)
        push(a % b);
    else
        fail("division by zero");
}

static void dup(void)
{
    int a = pop();

    push(a);
    push(a);
}

static void swap(void)
{
    int b = pop(), a = pop();

    push(b);
    push(a);
}

static void over(void)
{
    int b = pop(), a = pop();

    push(a);
    push(b);
    push(a);
}

static void rotate(void)
{
    int c = pop(), b = pop(), a = pop();

    push(b);
    push(c);
    push(a);
}

static int cell_of(int n)
{
    if (n >= 0 && n < CELLS)
        return n;
    fail("no such cell");
    return 0;
}

static void fetch(void) { push(cells[cell_of(pop())]); }

static void store(void)
{
    int at = cell_of(pop()), n = pop();

    if (!failure)
        cells[at] = n;
}

static void print(void)
{
    char digits[7];

    fputs(itoa(pop(), digits, 10), stdout);
    putchar(' ');
}

static void emit(void) { putchar(pop()); }
static void line(void) { putchar('\n'); }

void define_values(void)
{
    define("+", add, 0);
    define("-", subtract, 0);
    define("*", multiply, 0);
    define("/", divide, 0);
    define("mod", modulo, 0);
    define("<", less, 0);
    define(">", greater, 0);
    define("=", equal, 0);
    define("0=", is_zero, 0);
    define("and", both, 0);
    define("or", either, 0);
    define("negate", negate, 0);
    define("drop", drop, 0);
    define("depth", show_depth, 0);
    define("dup", dup, 0);
    define("swap", swap, 0);
    define("over", over, 0);
    define("rot", rotate, 0);
    define("@", fetch, 0);
    define("!", store, 0);
    define(".", print, 0);
    define("emit", emit, 0);
    define("cr", line, 0);
}
