/* Values from a text by a format (C90 7.9.6.2): d, u and x, with h or l before them, c, s and %%, widths, and * at a
   field whose value is passed over. */
#include <ctype.h>
#include <stdarg.h>
#include <stdio.h>

/* A field of a format: the most characters that it takes, and h, l or 0. */
struct field {
    unsigned int width;
    char is_passed_over;
    char size;
    char kind;
};

/* What came of a field, or of a character that is to stand in the text. */
enum outcome { FITS, DIFFERS, TEXT_ENDS };

static const char *behind_space(const char *s)
{
    while (isspace((unsigned char)*s))
        ++s;
    return s;
}

static const char *read_field(const char *format, struct field *field)
{
    field->is_passed_over = *format == '*';
    if (field->is_passed_over)
        ++format;
    field->width = 0;
    while (isdigit((unsigned char)*format))
        field->width = 10 * field->width + (*format++ - '0');
    field->size = *format == 'h' || *format == 'l' ? *format++ : 0;
    field->kind = *format;
    if (!field->width)
        field->width = field->kind == 'c' ? 1 : 65535U;
    return *format ? format + 1 : format;
}

/* The value of a digit; 16 of another character. */
static int digit(int c)
{
    if (isdigit(c))
        return c - '0';
    return isxdigit(c) ? tolower(c) - 'a' + 10 : 16;
}

/* Reads a number, and answers what stands behind it, or NULL where none stands there. */
static const char *read_number(const char *s, unsigned int width, int base, unsigned long *n)
{
    char is_negative = *s == '-';
    const char *start;

    if (*s == '-' || *s == '+') {
        ++s;
        --width;
    }
    if (base == 16 && width > 2 && s[0] == '0' && tolower((unsigned char)s[1]) == 'x' && isxdigit((unsigned char)s[2])) {
        s += 2;
        width -= 2;
    }
    *n = 0;
    for (start = s; width && digit((unsigned char)*s) < base; --width)
        *n = *n * base + digit((unsigned char)*s++);
    if (is_negative)
        *n = 0 - *n;
    return s == start ? NULL : s;
}

static enum outcome take_number(const char **s, const struct field *field, void *to)
{
    unsigned long n;
    const char *end;

    *s = behind_space(*s);
    if (!**s)
        return TEXT_ENDS;
    end = read_number(*s, field->width, field->kind == 'x' ? 16 : 10, &n);
    if (!end)
        return DIFFERS;
    *s = end;
    if (to && field->size == 'l')
        *(unsigned long *)to = n;
    else if (to)
        *(unsigned int *)to = (unsigned int)n;
    return FITS;
}

static enum outcome take_characters(const char **s, const struct field *field, char *to)
{
    unsigned int left = field->width;
    char is_word = field->kind == 's';

    if (is_word)
        *s = behind_space(*s);
    if (!**s)
        return TEXT_ENDS;
    for (; left && **s && !(is_word && isspace((unsigned char)**s)); --left) {
        if (to)
            *to++ = **s;
        ++*s;
    }
    if (left && !is_word)
        return DIFFERS;
    if (is_word && to)
        *to = 0;
    return FITS;
}

static enum outcome take_field(const char **s, const struct field *field, void *to)
{
    switch (field->kind) {
    case 'd':
    case 'u':
    case 'x':
        return take_number(s, field, to);
    case 'c':
    case 's':
        return take_characters(s, field, (char *)to);
    default:
        return DIFFERS;
    }
}

static enum outcome take_character(const char **s, char c)
{
    if (!**s)
        return TEXT_ENDS;
    if (**s != c)
        return DIFFERS;
    ++*s;
    return FITS;
}

int sscanf(const char *s, const char *format, ...)
{
    enum outcome outcome = FITS;
    struct field field;
    char has_converted = 0;
    int count = 0;
    va_list list;

    va_start(list, format);
    while (*format && outcome == FITS)
        if (isspace((unsigned char)*format)) {
            s = behind_space(s);
            ++format;
        } else if (format[0] != '%' || format[1] == '%') {
            format += format[0] == '%';
            outcome = take_character(&s, *format++);
        } else {
            format = read_field(format + 1, &field);
            outcome = take_field(&s, &field, field.is_passed_over ? NULL : va_arg(list, void *));
            has_converted |= outcome == FITS;
            count += outcome == FITS && !field.is_passed_over;
        }
    va_end(list);
    return outcome == TEXT_ENDS && !has_converted ? EOF : count;
}
