#include "show.h"

union both { unsigned int word; unsigned char bytes[2]; };
enum color { RED, GREEN = 5, BLUE, LAST = BLUE + 10 };
enum { NEGATIVE = -3, NEXT };
union first { int a; char b; } u = { 300 };
int main(void)
{
    union both w;
    enum color c = BLUE;
    w.word = 0x1234; line(w.bytes[0]); line(w.bytes[1]); w.bytes[1] = 1; line(w.bytes[1] * 256 + w.bytes[0]);
    line(RED); line(GREEN); line(c); line(LAST); line(NEGATIVE); line(NEXT); line(c == BLUE); line(u.a); u.b = 1; line(u.b);
    c = (enum color)(c + 1); line(c);
    switch (c) { case RED: line(1); break; case 7: line(2); break; }
    return 0;
}
