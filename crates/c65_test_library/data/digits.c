/* stdlib.h: numbers as digits, as cc65 has them. */
#include <stdlib.h>
#include "show.h"

static char text[34];

int main(void)
{
    show_text("itoa", itoa(-32767 - 1, text, 10));
    show_text("itoa zero", itoa(0, text, 10));
    show_text("itoa hexadecimal", itoa(-1, text, 16));
    show_text("itoa greatest", itoa(32767, text, 36));
    show_text("utoa", utoa(65535U, text, 10));
    show_text("utoa binary", utoa(65535U, text, 2));
    show_text("utoa octal", utoa(8, text, 8));
    show_text("ltoa", ltoa(-2147483647L - 1, text, 10));
    show_text("ltoa less", ltoa(-9, text, 10));
    show_text("ltoa hexadecimal", ltoa(-2, text, 16));
    show_text("ultoa", ultoa(4294967295UL, text, 10));
    show_text("ultoa binary", ultoa(4294967295UL, text, 2));
    show_text("ultoa of letters", ultoa(1295, text, 36));
    show("ultoa gives its string", ultoa(7, text, 10) == text);
    return 0;
}
