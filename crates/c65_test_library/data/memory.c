/* string.h: bytes (C90 7.11). */
#include <string.h>
#include "show.h"

static char field[16];

static void fill(void)
{
    memcpy(field, "0123456789abcde", 16);
}

static long place(const void *found)
{
    return found ? (const char *)found - field : -1;
}

int main(void)
{
    fill();
    show("memchr first", place(memchr(field, '0', 16)));
    show("memchr zero", place(memchr(field, 0, 16)));
    show("memchr beyond", place(memchr(field, 'a', 10)));
    show("memchr of none", place(memchr(field, '0', 0)));
    show("memchr by the byte", place(memchr(field, '7' + 256, 16)));

    show("memcmp equal", memcmp("ab\0c", "ab\0c", 4));
    show("memcmp behind a zero", sign(memcmp("ab\0c", "ab\0d", 4)));
    show("memcmp unsigned", sign(memcmp("\200", "\177", 1)));
    show("memcmp of none", memcmp("a", "b", 0));

    show("memmove", memmove(field + 2, field, 8) == field + 2);
    show_text("memmove up", field);
    fill();
    memmove(field, field + 2, 8);
    show_text("memmove down", field);
    fill();
    memmove(field + 3, field + 3, 5);
    memmove(field + 3, field, 0);
    show_text("memmove in place", field);
    memmove(field + 1, field, 1);
    show_text("memmove of one", field);

    fill();
    show("memcpy", memcpy(field, "xyz", 3) == field);
    show_text("memcpy", field);
    show("memset", memset(field + 1, 'm' + 256, 4) == field + 1);
    show_text("memset", field);
    memset(field, 0, 0);
    show_text("memset of none", field);
    return 0;
}
