/* Text by a format, with the fields of the runtime's printf: d, u, x, ld, lu, c, s and %%, and widths from 1 to 99. */
#include <stdarg.h>
#include <stdio.h>

/* Where the next byte goes, or null for the output, and how many went before. */
struct text {
    char *to;
    int count;
};

static void put(struct text *text, char c)
{
    if (text->to)
        *text->to++ = c;
    else
        putchar((unsigned char)c);
    ++text->count;
}

static void put_field(struct text *text, int width, const char *s, int size)
{
    while (width-- > size)
        put(text, ' ');
    while (size--)
        put(text, *s++);
}

static void put_text(struct text *text, int width, const char *s)
{
    int size = 0;

    while (s[size])
        ++size;
    put_field(text, width, s, size);
}

static void put_digits(struct text *text, int width, unsigned long n, int base, int negative)
{
    char digits[11];
    char *end = digits + sizeof(digits), *p = end;

    do {
        *--p = "0123456789abcdef"[n % base];
        n /= base;
    } while (n);
    if (negative)
        *--p = '-';
    put_field(text, width, p, end - p);
}

static void put_signed(struct text *text, int width, long n)
{
    put_digits(text, width, n < 0 ? 0 - (unsigned long)n : (unsigned long)n, 10, n < 0);
}

static int print(char *to, const char *format, va_list list)
{
    struct text text;
    int width;
    char c;

    text.to = to;
    text.count = 0;
    while ((c = *format++) != 0) {
        if (c != '%') {
            put(&text, c);
            continue;
        }
        width = 0;
        while (*format >= '0' && *format <= '9')
            width = 10 * width + (*format++ - '0');
        switch (c = *format++) {
        case 'd':
            put_signed(&text, width, va_arg(list, int));
            break;
        case 'u':
            put_digits(&text, width, va_arg(list, unsigned int), 10, 0);
            break;
        case 'x':
            put_digits(&text, width, va_arg(list, unsigned int), 16, 0);
            break;
        case 'l':
            if (*format++ == 'd')
                put_signed(&text, width, va_arg(list, long));
            else
                put_digits(&text, width, va_arg(list, unsigned long), 10, 0);
            break;
        case 'c':
            c = (char)va_arg(list, int);
            put_field(&text, width, &c, 1);
            break;
        case 's':
            put_text(&text, width, va_arg(list, const char *));
            break;
        default:
            put(&text, c);
            break;
        }
    }
    if (text.to)
        *text.to = 0;
    return text.count;
}

int vprintf(const char *format, va_list list)
{
    return print(NULL, format, list);
}

int vsprintf(char *s, const char *format, va_list list)
{
    return print(s, format, list);
}

int sprintf(char *s, const char *format, ...)
{
    va_list list;
    int count;

    va_start(list, format);
    count = vsprintf(s, format, list);
    va_end(list);
    return count;
}
