/* stdio.h: sprintf, vsprintf and vprintf, and printf beside them. */
#include <stdarg.h>
#include "show.h"

static char text[128];

static int into(const char *format, ...)
{
    va_list list;
    int n;

    va_start(list, format);
    n = vsprintf(text, format, list);
    va_end(list);
    return n;
}

static int out(const char *format, ...)
{
    va_list list;
    int n;

    va_start(list, format);
    n = vprintf(format, list);
    va_end(list);
    return n;
}

int main(void)
{
    show("sprintf", sprintf(text, "%5d|%x|%c|%s|%ld|%%", -42, 255, 'A', "hi", 100000L));
    show_text("text", text);
    show("words", sprintf(text, "%d %d %d %u %x", 0, 32767, -32767 - 1, 65535U, 48879U));
    show_text("text", text);
    show("longs", sprintf(text, "%ld %ld %lu", 2147483647L, -2147483647L - 1, 4294967295UL));
    show_text("text", text);
    show("widths", sprintf(text, "%3s|%1s|%6s|%3c|%2d|%12ld|%4x", "", "ab", "abc", 'z', -100, -7L, 171U));
    show_text("text", text);
    show("empty", sprintf(text, ""));
    show_text("text", text);
    show("vsprintf", into("%s of %d, %lu and %c", "one", 2, 3UL, '4'));
    show_text("text", text);
    show("vprintf", out("%d,%5s,%ld%%\n", 1, "two", 3L));
    show("printf", printf("%s|%99d|\n", text, -1));
    show("vprintf", out("%s|%99d|\n", text, -1));
    show("plain", sprintf(text, "100%%"));
    show_text("text", text);
    return 0;
}
