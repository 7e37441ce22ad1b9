/* Natural numbers of any length, in memory of malloc. */
#include <stdio.h>
#include <stdlib.h>
#include <string.h>
#include "big.h"

static struct big *make(unsigned room)
{
    struct big *made = calloc(1, sizeof *made + room * sizeof made->digits[0]);

    if (!made) {
        fputs("no memory\n", stderr);
        exit(EXIT_FAILURE);
    }
    made->room = room + 1;
    return made;
}

static struct big *trimmed(struct big *a)
{
    a->length = a->room;
    while (a->length && !a->digits[a->length - 1])
        --a->length;
    return a;
}

static unsigned digit(const struct big *a, unsigned place)
{
    return place < a->length ? a->digits[place] : 0;
}

struct big *big_of(unsigned n)
{
    struct big *made = make(1);

    made->digits[0] = n % BIG_BASE;
    made->digits[1] = n / BIG_BASE;
    return trimmed(made);
}

struct big *big_read(const char *decimal)
{
    unsigned left = strlen(decimal), place = 0, size;
    struct big *made = make(left / 4);
    char piece[5];

    while (left) {
        size = left < 4 ? left : 4;
        left -= size;
        strncpy(piece, decimal + left, size);
        piece[size] = 0;
        made->digits[place++] = atoi(piece);
    }
    return trimmed(made);
}

struct big *big_sum(const struct big *a, const struct big *b)
{
    unsigned length = a->length > b->length ? a->length : b->length;
    struct big *made = make(length);
    unsigned carry = 0, i;

    for (i = 0; i <= length; ++i) {
        carry += digit(a, i) + digit(b, i);
        made->digits[i] = carry % BIG_BASE;
        carry /= BIG_BASE;
    }
    return trimmed(made);
}

struct big *big_difference(const struct big *a, const struct big *b)
{
    struct big *made;
    int left = 0;
    unsigned i;

    if (big_order(a, b) < 0)
        return NULL;
    made = make(a->length);
    for (i = 0; i < a->length; ++i) {
        left += (int)digit(a, i) - (int)digit(b, i);
        made->digits[i] = left < 0 ? left + BIG_BASE : left;
        left = left < 0 ? -1 : 0;
    }
    return trimmed(made);
}

struct big *big_product(const struct big *a, const struct big *b)
{
    struct big *made = make(a->length + b->length);
    unsigned long carry;
    unsigned i, k;

    for (i = 0; i < a->length; ++i) {
        carry = 0;
        for (k = 0; k < b->length || carry; ++k) {
            carry += made->digits[i + k] + (unsigned long)a->digits[i] * digit(b, k);
            made->digits[i + k] = (unsigned)(carry % BIG_BASE);
            carry /= BIG_BASE;
        }
    }
    return trimmed(made);
}

unsigned big_divide(struct big *a, unsigned by)
{
    unsigned long rest = 0;
    unsigned i = a->length;

    while (i--) {
        rest = rest * BIG_BASE + a->digits[i];
        a->digits[i] = (unsigned)(rest / by);
        rest %= by;
    }
    trimmed(a);
    return (unsigned)rest;
}

int big_order(const struct big *a, const struct big *b)
{
    unsigned i = a->length;

    if (a->length != b->length)
        return a->length < b->length ? -1 : 1;
    while (i--)
        if (a->digits[i] != b->digits[i])
            return a->digits[i] < b->digits[i] ? -1 : 1;
    return 0;
}

void big_write(const struct big *a)
{
    unsigned i = a->length;
    char piece[6];

    if (!i) {
        putchar('0');
        return;
    }
    fputs(utoa(a->digits[--i], piece, 10), stdout);
    while (i--)
        fputs(utoa(a->digits[i] + BIG_BASE, piece, 10) + 1, stdout);
}

void big_free(struct big *a)
{
    free(a);
}
