/* What a test that does not hold writes, before the program ends. */
#include <assert.h>
#include <stdio.h>
#include <stdlib.h>

static void put_number(int n)
{
    if (n > 9)
        put_number(n / 10);
    putchar('0' + n % 10);
}

void _assert_failed(const char *test, const char *file, int line)
{
    fputs(file, stderr);
    putc(':', stderr);
    put_number(line);
    fputs(": assertion failed: ", stderr);
    fputs(test, stderr);
    putc('\n', stderr);
    abort();
}
