/* ctype.h: the ranges of -1 to 255 for which each test holds (C90 7.3). */
#include <ctype.h>
#include "show.h"

static void ranges(const char *name, int (*test)(int))
{
    int c, from = -2;

    put_text(name);
    for (c = -1; c <= 256; ++c)
        if (c < 256 && test(c)) {
            if (from == -2)
                from = c;
        } else if (from != -2) {
            putchar(' ');
            put_number(from);
            putchar('-');
            put_number(c - 1);
            from = -2;
        }
    putchar('\n');
}

static int is_lowered(int c)
{
    return tolower(c) != c;
}

static int is_raised(int c)
{
    return toupper(c) != c;
}

int main(void)
{
    ranges("isalnum", isalnum);
    ranges("isalpha", isalpha);
    ranges("iscntrl", iscntrl);
    ranges("isdigit", isdigit);
    ranges("isgraph", isgraph);
    ranges("islower", islower);
    ranges("isprint", isprint);
    ranges("ispunct", ispunct);
    ranges("isspace", isspace);
    ranges("isupper", isupper);
    ranges("isxdigit", isxdigit);
    ranges("tolower", is_lowered);
    ranges("toupper", is_raised);
    show("tolower Q", tolower('Q'));
    show("toupper q", toupper('q'));
    show("toupper EOF", toupper(EOF));
    return 0;
}
