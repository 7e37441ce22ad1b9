#include "show.h"

int main(void)
{
    int c, lines = 0, words = 0, bytes = 0; char in = 0;
    while ((c = getchar()) != EOF) { ++bytes; if (c == '\n') ++lines; if (c == ' ' || c == '\n' || c == '\t') in = 0; else if (!in) { in = 1; ++words; } }
    num(lines); putchar(32); num(words); putchar(32); line(bytes);
    return 0;
}
