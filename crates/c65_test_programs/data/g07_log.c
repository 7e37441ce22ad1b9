/* A log with further arguments, which one function hands on to another. */
#include <stdio.h>

typedef unsigned char *va_list;
#define va_start(list, last) ((list) = __va_rest)
#define va_arg(list, type) (*(type *) ((list) -= sizeof(type)))

static void number(unsigned long n)
{
    if (n > 9)
        number(n / 10);
    putchar('0' + (int) (n % 10));
}

/* `%d` an int, `%l` a long, `%s` a text */
static void write_list(const char *form, va_list list)
{
    const char *text;

    for (; *form; ++form) {
        if (*form != '%') {
            putchar(*form);
            continue;
        }
        switch (*++form) {
        case 'd':
            number(va_arg(list, int));
            break;
        case 'l':
            number(va_arg(list, long));
            break;
        case 's':
            for (text = va_arg(list, const char *); *text; ++text)
                putchar(*text);
            break;
        }
    }
    putchar('\n');
}

static int lines;

static void log_line(const char *from, const char *form, ...)
{
    va_list list;

    number(++lines);
    putchar(' ');
    for (; *from; ++from)
        putchar(*from);
    putchar(' ');
    va_start(list, form);
    write_list(form, list);
}

int main(void)
{
    log_line("disk", "%d of %d sectors", 7, 683);
    log_line("clock", "%s", "noon");
    log_line("modem", "%l bytes at %d", 100000L, 1200);
    log_line("modem", "closed");
    return lines;
}
