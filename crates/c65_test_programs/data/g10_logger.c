/* A logger: functions with `...` hand their lists on, to one that splits the format and prints each field by itself. */
#include <stdarg.h>
#include <stdio.h>

static int entries;

/* prints by a format with %d, %l (a long), %s and %c */
static int print_list(const char *format, va_list list)
{
    int n = 0;

    for (; *format; ++format) {
        if (*format != '%') {
            n += printf("%c", *format);
            continue;
        }
        switch (*++format) {
        case 'd':
            n += printf("%d", va_arg(list, int));
            break;
        case 'l':
            n += printf("%ld", va_arg(list, long));
            break;
        case 's':
            n += printf("%s", va_arg(list, const char *));
            break;
        case 'c':
            n += printf("%c", va_arg(list, int));
            break;
        default:
            n += printf("?");
            break;
        }
    }
    return n;
}

static int vlog(const char *level, const char *format, va_list list)
{
    int n = printf("%2d %5s: ", ++entries, level);

    n += print_list(format, list);
    return n + printf("\n");
}

static int info(const char *format, ...)
{
    va_list list;
    int n;

    va_start(list, format);
    n = vlog("info", format, list);
    va_end(list);
    return n;
}

static int warn(int code, const char *format, ...)
{
    va_list list;
    int n;

    va_start(list, format);
    n = vlog("warn", format, list);
    va_end(list);
    va_start(list, format);
    n += vlog("again", format, list);
    va_end(list);
    return n + code;
}

/* the greatest of n numbers */
static long greatest(int n, ...)
{
    va_list list;
    long most, other;

    va_start(list, n);
    most = va_arg(list, long);
    while (--n > 0) {
        other = va_arg(list, long);
        if (other > most)
            most = other;
    }
    va_end(list);
    return most;
}

struct point {
    int x, y;
};

static int points(int n, ...)
{
    va_list list;
    int s = 0;

    va_start(list, n);
    while (n-- > 0) {
        struct point p = va_arg(list, struct point);

        s += printf("(%d, %d)", p.x, p.y);
    }
    va_end(list);
    printf("\n");
    return s;
}

int main(void)
{
    struct point p, q;
    int n = 0;

    p.x = 3;
    p.y = -4;
    q.x = 0;
    q.y = 17;
    n += info("started");
    n += info("%d sectors of %d, %l bytes", 7, 683, 174848L);
    n += warn(5, "disk %c is %s", 'b', "full");
    n += info("%l", greatest(4, 70000L, -3L, 90000L, 89999L));
    n += points(2, p, q);
    printf("%d\n", n);
    return n;
}
