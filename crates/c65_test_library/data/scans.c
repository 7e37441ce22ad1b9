/* stdio.h: sscanf. */
#include "show.h"

static char word[32], other[32];
static int a, b, c;
static unsigned int u, x;
static long far;
static unsigned long most;
static short small;

int main(void)
{
    show("numbers", sscanf("12 -7\t+300", "%d%d %d", &a, &b, &c));
    show("a", a);
    show("b", b);
    show("c", c);
    show("edges", sscanf("-32768 32767 65535 0xFfFf", "%d %d %u %x", &a, &b, &u, &x));
    show("a", a);
    show("b", b);
    show("u", u == 65535U);
    show("x", x == 65535U);
    show("longs", sscanf("-2147483648 4294967295 7fffffff", "%ld %lu %lx", &far, &most, &most));
    show("far", far == -2147483647L - 1);
    show("most", most == 2147483647UL);
    show("short", sscanf("-5", "%hd", &small));
    show("small", small);
    show("widths", sscanf("12345 678", "%2d%1d%d", &a, &b, &c));
    show("a", a);
    show("b", b);
    show("c", c);
    show("signed width", sscanf("-123", "%2d%d", &a, &b));
    show("a", a);
    show("b", b);
    show("words", sscanf("  one two", "%s%s", word, other));
    show_text("word", word);
    show_text("other", other);
    show("cut", sscanf("abcdef", "%3s%s", word, other));
    show_text("word", word);
    show_text("other", other);
    word[0] = word[1] = word[2] = word[3] = '-';
    show("characters", sscanf(" xyz", "%c%2c", word, word + 1));
    show_text("word", word);
    show("passed over", sscanf("1 2 3", "%*d %d %*d", &a));
    show("a", a);
    show("letters", sscanf("x=4,y=5%", "x=%d,y=%d%%", &a, &b));
    show("a", a);
    show("b", b);
    show("spaces", sscanf("1   ,2", "%d ,%d", &a, &b));
    show("other letter", sscanf("1;2", "%d,%d", &a, &b));
    show("no number", sscanf("x", "%d", &a));
    show("no number behind one", sscanf("1 x", "%d %d", &a, &b));
    show("sign alone", sscanf("-", "%d", &a));
    show("empty", sscanf("", "%d", &a));
    show("spaces alone", sscanf("  ", "%s", word));
    show("end", sscanf("1", "%d %d", &a, &b));
    show("end at a letter", sscanf("", "x"));
    show("no field", sscanf("abc", "abc"));
    show("empty format", sscanf("abc", ""));
    show("hexadecimal", sscanf("0x1fg 0xg", "%xg %x", &u, &x));
    show("u", u);
    show("x", x);
    return 0;
}
