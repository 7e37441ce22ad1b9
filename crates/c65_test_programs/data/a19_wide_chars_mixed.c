#include "show.h"

int main(void)
{
    unsigned char c = 200;
    signed char s = -100;
    int i = -1000;
    unsigned u = 50000u;
    long l = 100000L;
    unsigned long ul = 3000000000UL;
    line(c + s); line(i + c); line((int)(u - 49000u)); line((int)(l - 99000L)); line((int)(ul - 2999990000UL));
    line((int)(l / i)); line((int)(ul / 1000000UL)); line((signed char)c); line((unsigned char)i); line((int)(unsigned char)s);
    line((int)(l >> 8)); line(i < c); line(l > u); line(ul > 5); line((long)i < l); line((short)i); line(s < c);
    line((int)((long)s * 300L)); line((int)((unsigned long)c << 6)); line(-(-i)); line((int)(~l + 100001L));
    return 0;
}
