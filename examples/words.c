/* Counts the lines, words and bytes of its input. */
#include <stdio.h>

static void number(unsigned long n)
{
    if (n > 9)
        number(n / 10);
    putchar('0' + (int)(n % 10));
}

int main(void)
{
    unsigned long lines = 0, words = 0, bytes = 0;
    int c, inside = 0;

    while ((c = getchar()) != EOF) {
        ++bytes;
        if (c == '\n')
            ++lines;
        if (c == ' ' || c == '\n' || c == '\t')
            inside = 0;
        else if (!inside) {
            inside = 1;
            ++words;
        }
    }
    number(lines);
    putchar(' ');
    number(words);
    putchar(' ');
    number(bytes);
    putchar('\n');
    return 0;
}
