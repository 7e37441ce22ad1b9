/* A table by printf, under a heading: what is left of a loan after each year. */
#include <stdarg.h>
#include <stdio.h>

/* a line of so many columns, each a text */
static void heading(int columns, ...)
{
    va_list list;

    va_start(list, columns);
    while (columns-- > 0)
        printf("%10s", va_arg(list, const char *));
    va_end(list);
    printf("\n");
}

int main(void)
{
    long left = 250000;
    int year;

    heading(3, "year", "interest", "left");
    for (year = 1; left > 0; ++year) {
        long interest = left * 7 / 100;

        left += interest - 80000;
        if (left < 0)
            left = 0;
        printf("%10d%10ld%10ld\n", year, interest, left);
    }
    return printf("paid in %d years\n", year - 1);
}
