/* A log with further arguments, which one function hands on to another. */
#include <stdarg.h>
#include <stdio.h>

/* `%d` an int, `%l` a long, `%s` a text */
static void write_list(const char *form, va_list list)
{
    for (; *form; ++form) {
        if (*form != '%') {
            putchar(*form);
            continue;
        }
        switch (*++form) {
        case 'd':
            printf("%d", va_arg(list, int));
            break;
        case 'l':
            printf("%ld", va_arg(list, long));
            break;
        case 's':
            printf("%s", va_arg(list, const char *));
            break;
        }
    }
    putchar('\n');
}

static int lines;

static void log_line(const char *from, const char *form, ...)
{
    va_list list;

    printf("%d %s ", ++lines, from);
    va_start(list, form);
    write_list(form, list);
    va_end(list);
}

int main(void)
{
    log_line("disk", "%d of %d sectors", 7, 683);
    log_line("clock", "%s", "noon");
    log_line("modem", "%l bytes at %d", 100000L, 1200);
    log_line("modem", "closed");
    return lines;
}
