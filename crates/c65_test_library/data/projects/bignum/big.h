/* Natural numbers of any length, in memory of malloc. */
#ifndef BIG_H
#define BIG_H

#define BIG_BASE 10000U /* a digit is four decimal ones */

struct big {
    unsigned length;    /* digits, without leading zeros; 0 has none */
    unsigned room;
    unsigned digits[1]; /* lowest first; and as many more as it has room for */
};

/* Each gives a new number, and ends the program where there is no memory. */
struct big *big_of(unsigned n);
struct big *big_read(const char *decimal);
struct big *big_sum(const struct big *a, const struct big *b);
struct big *big_product(const struct big *a, const struct big *b);

/* a - b, or NULL where b is greater. */
struct big *big_difference(const struct big *a, const struct big *b);

/* Divides in place by 1 to BIG_BASE, and answers the remainder. */
unsigned big_divide(struct big *a, unsigned by);

/* Below, equal to or above 0 as a is to b. */
int big_order(const struct big *a, const struct big *b);

void big_write(const struct big *a);
void big_free(struct big *a);

#endif
