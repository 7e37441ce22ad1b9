/* The primes below 100, by the sieve of Eratosthenes. */
#include <stdio.h>
#include <string.h>

#define LIMIT 100

static unsigned char composite[LIMIT];

static void number(unsigned n)
{
    if (n > 9)
        number(n / 10);
    putchar('0' + n % 10);
}

int main(void)
{
    unsigned i, j;

    memset(composite, 0, sizeof composite);
    for (i = 2; i < LIMIT; ++i) {
        if (composite[i])
            continue;
        number(i);
        putchar(' ');
        for (j = i * i; j < LIMIT; j += i)
            composite[j] = 1;
    }
    putchar('\n');
    return 0;
}
