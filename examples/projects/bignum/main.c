/* A calculator on a stack of long numbers: numbers and words, separated by white space. */
#include <ctype.h>
#include <stdio.h>
#include <stdlib.h>
#include <string.h>
#include "big.h"

#define DEPTH 16

static struct big *stack[DEPTH];
static int depth;

static void fail(const char *why)
{
    fputs(why, stderr);
    fputs("\n", stderr);
    exit(EXIT_FAILURE);
}

static void push(struct big *a)
{
    if (depth == DEPTH)
        fail("the stack is full");
    stack[depth++] = a;
}

static struct big *pop(void)
{
    if (!depth)
        fail("the stack is empty");
    return stack[--depth];
}

/* A number that fits in one digit. */
static unsigned pop_small(void)
{
    struct big *a = pop();
    unsigned value = a->length ? a->digits[0] : 0;

    if (a->length > 1)
        fail("too large");
    big_free(a);
    return value;
}

static void apply(struct big *(*operation)(const struct big *, const struct big *))
{
    struct big *b = pop(), *a = pop(), *result = operation(a, b);

    if (!result)
        fail("below zero");
    push(result);
    big_free(a);
    big_free(b);
}

static void add(void)
{
    apply(big_sum);
}

static void subtract(void)
{
    apply(big_difference);
}

static void multiply(void)
{
    apply(big_product);
}

static void divide(void)
{
    unsigned by = pop_small(), rest;

    if (!by)
        fail("division by zero");
    rest = big_divide(stack[depth - 1], by);
    push(big_of(rest));
}

static void power(void)
{
    unsigned n = pop_small();
    struct big *base = pop();

    push(big_of(1));
    for (; n; n /= 2) {
        if (n % 2) {
            push(big_sum(base, big_of(0)));
            multiply();
        }
        push(base);
        push(base);
        base = big_product(pop(), pop());
    }
    big_free(base);
}

static void factorial(void)
{
    unsigned n = pop_small();

    push(big_of(1));
    for (; n; --n) {
        push(big_of(n));
        multiply();
    }
}

static void fibonacci(void)
{
    unsigned n = pop_small();
    struct big *a = big_of(0), *b = big_of(1), *sum;

    for (; n; --n) {
        sum = big_sum(a, b);
        big_free(a);
        a = b;
        b = sum;
    }
    big_free(b);
    push(a);
}

static void order(void)
{
    struct big *b = pop(), *a = pop();
    int result = big_order(a, b);

    puts(result < 0 ? "less" : result ? "greater" : "equal");
    big_free(a);
    big_free(b);
}

static void print(void)
{
    struct big *a = pop();

    big_write(a);
    putchar('\n');
    big_free(a);
}

static const struct {
    const char *name;
    void (*act)(void);
} words[] = {
    { "+", add }, { "-", subtract }, { "*", multiply }, { "/", divide }, { "^", power },
    { "!", factorial }, { "fib", fibonacci }, { "?", order }, { ".", print }
};

static void obey(const char *word)
{
    unsigned i;

    if (isdigit((unsigned char)word[0])) {
        push(big_read(word));
        return;
    }
    for (i = 0; i < sizeof words / sizeof words[0]; ++i)
        if (!strcmp(word, words[i].name)) {
            words[i].act();
            return;
        }
    fail("an unknown word");
}

int main(void)
{
    char line[128];
    char *word;

    while (fgets(line, sizeof line, stdin))
        for (word = strtok(line, " \t\n"); word; word = strtok(NULL, " \t\n"))
            obey(word);
    return depth;
}
