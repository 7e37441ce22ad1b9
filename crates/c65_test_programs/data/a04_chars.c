#include "show.h"

signed char sc = -3;
unsigned char uc = 250;
char plain = 200;
int main(void)
{
    char c = 'A';
    line(c); line(c + 1); line(sc); line(uc); line(plain); line(sc * 2); line(uc + 10);
    uc += 10; line(uc); sc = (signed char)130; line(sc); c++; line(c); --c; line(c);
    line('\n'); line('\\'); line('\''); line('\x41'); line('\101'); line('\0'); line(sizeof c); line('\377');
    line((signed char)255); line((unsigned char)-1); line((char)300);
    return 0;
}
