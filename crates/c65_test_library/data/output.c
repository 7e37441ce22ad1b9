/* stdio.h: fputs, fputc and putc. */
#include "show.h"

int main(void)
{
    show("fputs", fputs("one\n", stdout) >= 0);
    show("fputs empty", fputs("", stdout) >= 0);
    show("fputs to stderr", fputs("two\n", stderr) >= 0);
    show("fputs to the input", fputs("three\n", stdin));
    show("fputc", fputc('A' + 256, stdout));
    show("putc", putc(254, stdout));
    show("putc to the input", putc('x', stdin));
    show("fputc to the input", fputc('x', stdin));
    show("puts", puts("four") >= 0);
    return 0;
}
