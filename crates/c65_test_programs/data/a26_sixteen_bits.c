#include "show.h"

static void ulong(unsigned long n) { if (n > 9) ulong(n / 10); putchar(48 + (int)(n % 10)); }
static void show(unsigned long n) { ulong(n); putchar(10); }
int main(void)
{
    int i = 32767; unsigned u = 65535u; long l = 65536L; unsigned long ul;
    line(sizeof(int)); line(sizeof(long)); line(sizeof(char *)); line(sizeof(short)); line(sizeof 'a'); line(sizeof 40000); line(sizeof 40000u);
    i = i + 1; line(i < 0); line(i == -32767 - 1); u++; show(u); line(-1 < 1u); line(-1L < 1u); line((unsigned)-1 > 0x7fff); show(0xffff); show(0xffffUL + 1);
    show((unsigned)(-2)); line((int)40000L); line((int)(l + 5)); ul = -1; show(ul); ul = (unsigned)-1; show(ul); ul = 0xffff0000UL; ul >>= 12; show(ul);
    line(300 * 300); show((unsigned)300 * 300u); show(300L * 300); line(~0u == 65535u); line((1 << 15) < 0); line((char)0x1ff); line(0x8000 > 0); line(32768 > 0);
    return 0;
}
