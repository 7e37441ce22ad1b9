/* String literals: joined, escaped, indexed, as arrays and as pointers. */
#include "show.h"

static char joined[] = "ab" "c\061" "2" "\x41" "\102" "";
static char *list[] = { "zero", "one", "two\0hidden", "" };
static const char odd[4] = "abcd";

static int length(const char *s)
{
    const char *p = s;

    while (*p)
        p++;
    return p - s;
}

static char *reverse(char *s)
{
    char *a = s, *b = s + length(s), t;

    while (a < --b) {
        t = *a;
        *a++ = *b;
        *b = t;
    }
    return s;
}

static int value(char *s)
{
    int n = 0;

    for (; *s >= '0' && *s <= '9'; ++s)
        n = n * 10 + (*s - '0');
    return n;
}

int main(void)
{
    char copy[] = "stressed", *p;
    int i, total = 0;

    puts(joined);
    line(sizeof joined);
    for (i = 0; i < 4; i++)
        total = total * 10 + length(list[i]);
    line(total);
    line(list[2][5]);
    line("abc"[1]);
    line(2["abc"]);
    line(*"abc" + *("abc" + 3));
    line(sizeof "a\0b");
    line('\\' + '\'' + '"' + '\?' + '\a');
    line('\12' * 100 + '\xA');
    puts("quote \" backslash \\ tab\tend");
    puts(reverse(copy));
    puts(&"comfortable"[7]);
    line(value("1234x5"));
    line(odd[3]);
    p = "x" + 1;
    line(*p);
    for (p = copy; *p; p += 2)
        putchar(*p);
    putchar(10);
    return 0;
}
