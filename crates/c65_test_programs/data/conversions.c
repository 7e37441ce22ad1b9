int putchar(int c);
static unsigned long sum;
static void mix(unsigned long v) { sum = sum + sum + sum + v; }
static void hex(unsigned long n, int digits) { if (digits > 1) hex(n >> 4, digits - 1); putchar("0123456789abcdef"[n & 15]); }
static void show(int end) { hex(sum, 8); putchar(end); sum = 0; }
static unsigned char kept_uc;
static void pass_uc(unsigned char x) { mix(x); }
static void pushed_uc(unsigned char x, char y) { mix(x); mix(y); }
static signed char kept_sc;
static void pass_sc(signed char x) { mix(x); }
static void pushed_sc(signed char x, char y) { mix(x); mix(y); }
static short kept_s;
static void pass_s(short x) { mix(x); }
static void pushed_s(short x, char y) { mix(x); mix(y); }
static unsigned short kept_us;
static void pass_us(unsigned short x) { mix(x); }
static void pushed_us(unsigned short x, char y) { mix(x); mix(y); }
static int kept_i;
static void pass_i(int x) { mix(x); }
static void pushed_i(int x, char y) { mix(x); mix(y); }
static unsigned int kept_u;
static void pass_u(unsigned int x) { mix(x); }
static void pushed_u(unsigned int x, char y) { mix(x); mix(y); }
static long kept_l;
static void pass_l(long x) { mix(x); }
static void pushed_l(long x, char y) { mix(x); mix(y); }
static unsigned long kept_ul;
static void pass_ul(unsigned long x) { mix(x); }
static void pushed_ul(unsigned long x, char y) { mix(x); mix(y); }
static unsigned char from_uc[] = { ((unsigned char) 0), ((unsigned char) 1), ((unsigned char) 2), ((unsigned char) 7), ((unsigned char) 127), ((unsigned char) 128), ((unsigned char) 200), ((unsigned char) 255) };
static unsigned char back_uc_uc(unsigned char x) { return x; }
static unsigned char first_uc_uc[] = { ((unsigned char) 0), ((unsigned char) 1), ((unsigned char) 2), ((unsigned char) 7), ((unsigned char) 127), ((unsigned char) 128), ((unsigned char) 200), ((unsigned char) 255) };
static signed char back_uc_sc(unsigned char x) { return x; }
static signed char first_uc_sc[] = { ((unsigned char) 0), ((unsigned char) 1), ((unsigned char) 2), ((unsigned char) 7), ((unsigned char) 127), ((unsigned char) 128), ((unsigned char) 200), ((unsigned char) 255) };
static short back_uc_s(unsigned char x) { return x; }
static short first_uc_s[] = { ((unsigned char) 0), ((unsigned char) 1), ((unsigned char) 2), ((unsigned char) 7), ((unsigned char) 127), ((unsigned char) 128), ((unsigned char) 200), ((unsigned char) 255) };
static unsigned short back_uc_us(unsigned char x) { return x; }
static unsigned short first_uc_us[] = { ((unsigned char) 0), ((unsigned char) 1), ((unsigned char) 2), ((unsigned char) 7), ((unsigned char) 127), ((unsigned char) 128), ((unsigned char) 200), ((unsigned char) 255) };
static int back_uc_i(unsigned char x) { return x; }
static int first_uc_i[] = { ((unsigned char) 0), ((unsigned char) 1), ((unsigned char) 2), ((unsigned char) 7), ((unsigned char) 127), ((unsigned char) 128), ((unsigned char) 200), ((unsigned char) 255) };
static unsigned int back_uc_u(unsigned char x) { return x; }
static unsigned int first_uc_u[] = { ((unsigned char) 0), ((unsigned char) 1), ((unsigned char) 2), ((unsigned char) 7), ((unsigned char) 127), ((unsigned char) 128), ((unsigned char) 200), ((unsigned char) 255) };
static long back_uc_l(unsigned char x) { return x; }
static long first_uc_l[] = { ((unsigned char) 0), ((unsigned char) 1), ((unsigned char) 2), ((unsigned char) 7), ((unsigned char) 127), ((unsigned char) 128), ((unsigned char) 200), ((unsigned char) 255) };
static unsigned long back_uc_ul(unsigned char x) { return x; }
static unsigned long first_uc_ul[] = { ((unsigned char) 0), ((unsigned char) 1), ((unsigned char) 2), ((unsigned char) 7), ((unsigned char) 127), ((unsigned char) 128), ((unsigned char) 200), ((unsigned char) 255) };
static void convert_uc(void)
{
    int i; unsigned char near; register unsigned char bank;
    for (i = 0; i < 8; i++) { near = bank = from_uc[i]; mix((unsigned char) near); mix((unsigned char) bank); mix((unsigned char) from_uc[i]); { unsigned char y = near; mix(y); } { register unsigned char y = bank; mix(y); } kept_uc = near; mix(kept_uc); mix(kept_uc = bank); pass_uc(near); pushed_uc(bank, i); mix(back_uc_uc(near)); mix(first_uc_uc[i]); mix(!(unsigned char) near); if ((unsigned char) near) mix(7); } show(' ');
    for (i = 0; i < 8; i++) { near = bank = from_uc[i]; mix((signed char) near); mix((signed char) bank); mix((signed char) from_uc[i]); { signed char y = near; mix(y); } { register signed char y = bank; mix(y); } kept_sc = near; mix(kept_sc); mix(kept_sc = bank); pass_sc(near); pushed_sc(bank, i); mix(back_uc_sc(near)); mix(first_uc_sc[i]); mix(!(signed char) near); if ((signed char) near) mix(7); } show(' ');
    for (i = 0; i < 8; i++) { near = bank = from_uc[i]; mix((short) near); mix((short) bank); mix((short) from_uc[i]); { short y = near; mix(y); } { register short y = bank; mix(y); } kept_s = near; mix(kept_s); mix(kept_s = bank); pass_s(near); pushed_s(bank, i); mix(back_uc_s(near)); mix(first_uc_s[i]); mix(!(short) near); if ((short) near) mix(7); } show(' ');
    for (i = 0; i < 8; i++) { near = bank = from_uc[i]; mix((unsigned short) near); mix((unsigned short) bank); mix((unsigned short) from_uc[i]); { unsigned short y = near; mix(y); } { register unsigned short y = bank; mix(y); } kept_us = near; mix(kept_us); mix(kept_us = bank); pass_us(near); pushed_us(bank, i); mix(back_uc_us(near)); mix(first_uc_us[i]); mix(!(unsigned short) near); if ((unsigned short) near) mix(7); } show(' ');
    for (i = 0; i < 8; i++) { near = bank = from_uc[i]; mix((int) near); mix((int) bank); mix((int) from_uc[i]); { int y = near; mix(y); } { register int y = bank; mix(y); } kept_i = near; mix(kept_i); mix(kept_i = bank); pass_i(near); pushed_i(bank, i); mix(back_uc_i(near)); mix(first_uc_i[i]); mix(!(int) near); if ((int) near) mix(7); } show(' ');
    for (i = 0; i < 8; i++) { near = bank = from_uc[i]; mix((unsigned int) near); mix((unsigned int) bank); mix((unsigned int) from_uc[i]); { unsigned int y = near; mix(y); } { register unsigned int y = bank; mix(y); } kept_u = near; mix(kept_u); mix(kept_u = bank); pass_u(near); pushed_u(bank, i); mix(back_uc_u(near)); mix(first_uc_u[i]); mix(!(unsigned int) near); if ((unsigned int) near) mix(7); } show(' ');
    for (i = 0; i < 8; i++) { near = bank = from_uc[i]; mix((long) near); mix((long) bank); mix((long) from_uc[i]); { long y = near; mix(y); } { register long y = bank; mix(y); } kept_l = near; mix(kept_l); mix(kept_l = bank); pass_l(near); pushed_l(bank, i); mix(back_uc_l(near)); mix(first_uc_l[i]); mix(!(long) near); if ((long) near) mix(7); } show(' ');
    for (i = 0; i < 8; i++) { near = bank = from_uc[i]; mix((unsigned long) near); mix((unsigned long) bank); mix((unsigned long) from_uc[i]); { unsigned long y = near; mix(y); } { register unsigned long y = bank; mix(y); } kept_ul = near; mix(kept_ul); mix(kept_ul = bank); pass_ul(near); pushed_ul(bank, i); mix(back_uc_ul(near)); mix(first_uc_ul[i]); mix(!(unsigned long) near); if ((unsigned long) near) mix(7); } show(' ');
    putchar(10);
}
static signed char from_sc[] = { ((signed char) -128), ((signed char) -127), ((signed char) -2), ((signed char) -1), ((signed char) 0), ((signed char) 1), ((signed char) 7), ((signed char) 127) };
static unsigned char back_sc_uc(signed char x) { return x; }
static unsigned char first_sc_uc[] = { ((signed char) -128), ((signed char) -127), ((signed char) -2), ((signed char) -1), ((signed char) 0), ((signed char) 1), ((signed char) 7), ((signed char) 127) };
static signed char back_sc_sc(signed char x) { return x; }
static signed char first_sc_sc[] = { ((signed char) -128), ((signed char) -127), ((signed char) -2), ((signed char) -1), ((signed char) 0), ((signed char) 1), ((signed char) 7), ((signed char) 127) };
static short back_sc_s(signed char x) { return x; }
static short first_sc_s[] = { ((signed char) -128), ((signed char) -127), ((signed char) -2), ((signed char) -1), ((signed char) 0), ((signed char) 1), ((signed char) 7), ((signed char) 127) };
static unsigned short back_sc_us(signed char x) { return x; }
static unsigned short first_sc_us[] = { ((signed char) -128), ((signed char) -127), ((signed char) -2), ((signed char) -1), ((signed char) 0), ((signed char) 1), ((signed char) 7), ((signed char) 127) };
static int back_sc_i(signed char x) { return x; }
static int first_sc_i[] = { ((signed char) -128), ((signed char) -127), ((signed char) -2), ((signed char) -1), ((signed char) 0), ((signed char) 1), ((signed char) 7), ((signed char) 127) };
static unsigned int back_sc_u(signed char x) { return x; }
static unsigned int first_sc_u[] = { ((signed char) -128), ((signed char) -127), ((signed char) -2), ((signed char) -1), ((signed char) 0), ((signed char) 1), ((signed char) 7), ((signed char) 127) };
static long back_sc_l(signed char x) { return x; }
static long first_sc_l[] = { ((signed char) -128), ((signed char) -127), ((signed char) -2), ((signed char) -1), ((signed char) 0), ((signed char) 1), ((signed char) 7), ((signed char) 127) };
static unsigned long back_sc_ul(signed char x) { return x; }
static unsigned long first_sc_ul[] = { ((signed char) -128), ((signed char) -127), ((signed char) -2), ((signed char) -1), ((signed char) 0), ((signed char) 1), ((signed char) 7), ((signed char) 127) };
static void convert_sc(void)
{
    int i; signed char near; register signed char bank;
    for (i = 0; i < 8; i++) { near = bank = from_sc[i]; mix((unsigned char) near); mix((unsigned char) bank); mix((unsigned char) from_sc[i]); { unsigned char y = near; mix(y); } { register unsigned char y = bank; mix(y); } kept_uc = near; mix(kept_uc); mix(kept_uc = bank); pass_uc(near); pushed_uc(bank, i); mix(back_sc_uc(near)); mix(first_sc_uc[i]); mix(!(unsigned char) near); if ((unsigned char) near) mix(7); } show(' ');
    for (i = 0; i < 8; i++) { near = bank = from_sc[i]; mix((signed char) near); mix((signed char) bank); mix((signed char) from_sc[i]); { signed char y = near; mix(y); } { register signed char y = bank; mix(y); } kept_sc = near; mix(kept_sc); mix(kept_sc = bank); pass_sc(near); pushed_sc(bank, i); mix(back_sc_sc(near)); mix(first_sc_sc[i]); mix(!(signed char) near); if ((signed char) near) mix(7); } show(' ');
    for (i = 0; i < 8; i++) { near = bank = from_sc[i]; mix((short) near); mix((short) bank); mix((short) from_sc[i]); { short y = near; mix(y); } { register short y = bank; mix(y); } kept_s = near; mix(kept_s); mix(kept_s = bank); pass_s(near); pushed_s(bank, i); mix(back_sc_s(near)); mix(first_sc_s[i]); mix(!(short) near); if ((short) near) mix(7); } show(' ');
    for (i = 0; i < 8; i++) { near = bank = from_sc[i]; mix((unsigned short) near); mix((unsigned short) bank); mix((unsigned short) from_sc[i]); { unsigned short y = near; mix(y); } { register unsigned short y = bank; mix(y); } kept_us = near; mix(kept_us); mix(kept_us = bank); pass_us(near); pushed_us(bank, i); mix(back_sc_us(near)); mix(first_sc_us[i]); mix(!(unsigned short) near); if ((unsigned short) near) mix(7); } show(' ');
    for (i = 0; i < 8; i++) { near = bank = from_sc[i]; mix((int) near); mix((int) bank); mix((int) from_sc[i]); { int y = near; mix(y); } { register int y = bank; mix(y); } kept_i = near; mix(kept_i); mix(kept_i = bank); pass_i(near); pushed_i(bank, i); mix(back_sc_i(near)); mix(first_sc_i[i]); mix(!(int) near); if ((int) near) mix(7); } show(' ');
    for (i = 0; i < 8; i++) { near = bank = from_sc[i]; mix((unsigned int) near); mix((unsigned int) bank); mix((unsigned int) from_sc[i]); { unsigned int y = near; mix(y); } { register unsigned int y = bank; mix(y); } kept_u = near; mix(kept_u); mix(kept_u = bank); pass_u(near); pushed_u(bank, i); mix(back_sc_u(near)); mix(first_sc_u[i]); mix(!(unsigned int) near); if ((unsigned int) near) mix(7); } show(' ');
    for (i = 0; i < 8; i++) { near = bank = from_sc[i]; mix((long) near); mix((long) bank); mix((long) from_sc[i]); { long y = near; mix(y); } { register long y = bank; mix(y); } kept_l = near; mix(kept_l); mix(kept_l = bank); pass_l(near); pushed_l(bank, i); mix(back_sc_l(near)); mix(first_sc_l[i]); mix(!(long) near); if ((long) near) mix(7); } show(' ');
    for (i = 0; i < 8; i++) { near = bank = from_sc[i]; mix((unsigned long) near); mix((unsigned long) bank); mix((unsigned long) from_sc[i]); { unsigned long y = near; mix(y); } { register unsigned long y = bank; mix(y); } kept_ul = near; mix(kept_ul); mix(kept_ul = bank); pass_ul(near); pushed_ul(bank, i); mix(back_sc_ul(near)); mix(first_sc_ul[i]); mix(!(unsigned long) near); if ((unsigned long) near) mix(7); } show(' ');
    putchar(10);
}
static short from_s[] = { ((short) -32768), ((short) -32767), ((short) -256), ((short) -1), ((short) 0), ((short) 3), ((short) 255), ((short) 32767) };
static unsigned char back_s_uc(short x) { return x; }
static unsigned char first_s_uc[] = { ((short) -32768), ((short) -32767), ((short) -256), ((short) -1), ((short) 0), ((short) 3), ((short) 255), ((short) 32767) };
static signed char back_s_sc(short x) { return x; }
static signed char first_s_sc[] = { ((short) -32768), ((short) -32767), ((short) -256), ((short) -1), ((short) 0), ((short) 3), ((short) 255), ((short) 32767) };
static short back_s_s(short x) { return x; }
static short first_s_s[] = { ((short) -32768), ((short) -32767), ((short) -256), ((short) -1), ((short) 0), ((short) 3), ((short) 255), ((short) 32767) };
static unsigned short back_s_us(short x) { return x; }
static unsigned short first_s_us[] = { ((short) -32768), ((short) -32767), ((short) -256), ((short) -1), ((short) 0), ((short) 3), ((short) 255), ((short) 32767) };
static int back_s_i(short x) { return x; }
static int first_s_i[] = { ((short) -32768), ((short) -32767), ((short) -256), ((short) -1), ((short) 0), ((short) 3), ((short) 255), ((short) 32767) };
static unsigned int back_s_u(short x) { return x; }
static unsigned int first_s_u[] = { ((short) -32768), ((short) -32767), ((short) -256), ((short) -1), ((short) 0), ((short) 3), ((short) 255), ((short) 32767) };
static long back_s_l(short x) { return x; }
static long first_s_l[] = { ((short) -32768), ((short) -32767), ((short) -256), ((short) -1), ((short) 0), ((short) 3), ((short) 255), ((short) 32767) };
static unsigned long back_s_ul(short x) { return x; }
static unsigned long first_s_ul[] = { ((short) -32768), ((short) -32767), ((short) -256), ((short) -1), ((short) 0), ((short) 3), ((short) 255), ((short) 32767) };
static void convert_s(void)
{
    int i; short near; register short bank;
    for (i = 0; i < 8; i++) { near = bank = from_s[i]; mix((unsigned char) near); mix((unsigned char) bank); mix((unsigned char) from_s[i]); { unsigned char y = near; mix(y); } { register unsigned char y = bank; mix(y); } kept_uc = near; mix(kept_uc); mix(kept_uc = bank); pass_uc(near); pushed_uc(bank, i); mix(back_s_uc(near)); mix(first_s_uc[i]); mix(!(unsigned char) near); if ((unsigned char) near) mix(7); } show(' ');
    for (i = 0; i < 8; i++) { near = bank = from_s[i]; mix((signed char) near); mix((signed char) bank); mix((signed char) from_s[i]); { signed char y = near; mix(y); } { register signed char y = bank; mix(y); } kept_sc = near; mix(kept_sc); mix(kept_sc = bank); pass_sc(near); pushed_sc(bank, i); mix(back_s_sc(near)); mix(first_s_sc[i]); mix(!(signed char) near); if ((signed char) near) mix(7); } show(' ');
    for (i = 0; i < 8; i++) { near = bank = from_s[i]; mix((short) near); mix((short) bank); mix((short) from_s[i]); { short y = near; mix(y); } { register short y = bank; mix(y); } kept_s = near; mix(kept_s); mix(kept_s = bank); pass_s(near); pushed_s(bank, i); mix(back_s_s(near)); mix(first_s_s[i]); mix(!(short) near); if ((short) near) mix(7); } show(' ');
    for (i = 0; i < 8; i++) { near = bank = from_s[i]; mix((unsigned short) near); mix((unsigned short) bank); mix((unsigned short) from_s[i]); { unsigned short y = near; mix(y); } { register unsigned short y = bank; mix(y); } kept_us = near; mix(kept_us); mix(kept_us = bank); pass_us(near); pushed_us(bank, i); mix(back_s_us(near)); mix(first_s_us[i]); mix(!(unsigned short) near); if ((unsigned short) near) mix(7); } show(' ');
    for (i = 0; i < 8; i++) { near = bank = from_s[i]; mix((int) near); mix((int) bank); mix((int) from_s[i]); { int y = near; mix(y); } { register int y = bank; mix(y); } kept_i = near; mix(kept_i); mix(kept_i = bank); pass_i(near); pushed_i(bank, i); mix(back_s_i(near)); mix(first_s_i[i]); mix(!(int) near); if ((int) near) mix(7); } show(' ');
    for (i = 0; i < 8; i++) { near = bank = from_s[i]; mix((unsigned int) near); mix((unsigned int) bank); mix((unsigned int) from_s[i]); { unsigned int y = near; mix(y); } { register unsigned int y = bank; mix(y); } kept_u = near; mix(kept_u); mix(kept_u = bank); pass_u(near); pushed_u(bank, i); mix(back_s_u(near)); mix(first_s_u[i]); mix(!(unsigned int) near); if ((unsigned int) near) mix(7); } show(' ');
    for (i = 0; i < 8; i++) { near = bank = from_s[i]; mix((long) near); mix((long) bank); mix((long) from_s[i]); { long y = near; mix(y); } { register long y = bank; mix(y); } kept_l = near; mix(kept_l); mix(kept_l = bank); pass_l(near); pushed_l(bank, i); mix(back_s_l(near)); mix(first_s_l[i]); mix(!(long) near); if ((long) near) mix(7); } show(' ');
    for (i = 0; i < 8; i++) { near = bank = from_s[i]; mix((unsigned long) near); mix((unsigned long) bank); mix((unsigned long) from_s[i]); { unsigned long y = near; mix(y); } { register unsigned long y = bank; mix(y); } kept_ul = near; mix(kept_ul); mix(kept_ul = bank); pass_ul(near); pushed_ul(bank, i); mix(back_s_ul(near)); mix(first_s_ul[i]); mix(!(unsigned long) near); if ((unsigned long) near) mix(7); } show(' ');
    putchar(10);
}
static unsigned short from_us[] = { ((unsigned short) 0), ((unsigned short) 1), ((unsigned short) 9), ((unsigned short) 255), ((unsigned short) 256), ((unsigned short) 32767), ((unsigned short) 32768), ((unsigned short) 65535) };
static unsigned char back_us_uc(unsigned short x) { return x; }
static unsigned char first_us_uc[] = { ((unsigned short) 0), ((unsigned short) 1), ((unsigned short) 9), ((unsigned short) 255), ((unsigned short) 256), ((unsigned short) 32767), ((unsigned short) 32768), ((unsigned short) 65535) };
static signed char back_us_sc(unsigned short x) { return x; }
static signed char first_us_sc[] = { ((unsigned short) 0), ((unsigned short) 1), ((unsigned short) 9), ((unsigned short) 255), ((unsigned short) 256), ((unsigned short) 32767), ((unsigned short) 32768), ((unsigned short) 65535) };
static short back_us_s(unsigned short x) { return x; }
static short first_us_s[] = { ((unsigned short) 0), ((unsigned short) 1), ((unsigned short) 9), ((unsigned short) 255), ((unsigned short) 256), ((unsigned short) 32767), ((unsigned short) 32768), ((unsigned short) 65535) };
static unsigned short back_us_us(unsigned short x) { return x; }
static unsigned short first_us_us[] = { ((unsigned short) 0), ((unsigned short) 1), ((unsigned short) 9), ((unsigned short) 255), ((unsigned short) 256), ((unsigned short) 32767), ((unsigned short) 32768), ((unsigned short) 65535) };
static int back_us_i(unsigned short x) { return x; }
static int first_us_i[] = { ((unsigned short) 0), ((unsigned short) 1), ((unsigned short) 9), ((unsigned short) 255), ((unsigned short) 256), ((unsigned short) 32767), ((unsigned short) 32768), ((unsigned short) 65535) };
static unsigned int back_us_u(unsigned short x) { return x; }
static unsigned int first_us_u[] = { ((unsigned short) 0), ((unsigned short) 1), ((unsigned short) 9), ((unsigned short) 255), ((unsigned short) 256), ((unsigned short) 32767), ((unsigned short) 32768), ((unsigned short) 65535) };
static long back_us_l(unsigned short x) { return x; }
static long first_us_l[] = { ((unsigned short) 0), ((unsigned short) 1), ((unsigned short) 9), ((unsigned short) 255), ((unsigned short) 256), ((unsigned short) 32767), ((unsigned short) 32768), ((unsigned short) 65535) };
static unsigned long back_us_ul(unsigned short x) { return x; }
static unsigned long first_us_ul[] = { ((unsigned short) 0), ((unsigned short) 1), ((unsigned short) 9), ((unsigned short) 255), ((unsigned short) 256), ((unsigned short) 32767), ((unsigned short) 32768), ((unsigned short) 65535) };
static void convert_us(void)
{
    int i; unsigned short near; register unsigned short bank;
    for (i = 0; i < 8; i++) { near = bank = from_us[i]; mix((unsigned char) near); mix((unsigned char) bank); mix((unsigned char) from_us[i]); { unsigned char y = near; mix(y); } { register unsigned char y = bank; mix(y); } kept_uc = near; mix(kept_uc); mix(kept_uc = bank); pass_uc(near); pushed_uc(bank, i); mix(back_us_uc(near)); mix(first_us_uc[i]); mix(!(unsigned char) near); if ((unsigned char) near) mix(7); } show(' ');
    for (i = 0; i < 8; i++) { near = bank = from_us[i]; mix((signed char) near); mix((signed char) bank); mix((signed char) from_us[i]); { signed char y = near; mix(y); } { register signed char y = bank; mix(y); } kept_sc = near; mix(kept_sc); mix(kept_sc = bank); pass_sc(near); pushed_sc(bank, i); mix(back_us_sc(near)); mix(first_us_sc[i]); mix(!(signed char) near); if ((signed char) near) mix(7); } show(' ');
    for (i = 0; i < 8; i++) { near = bank = from_us[i]; mix((short) near); mix((short) bank); mix((short) from_us[i]); { short y = near; mix(y); } { register short y = bank; mix(y); } kept_s = near; mix(kept_s); mix(kept_s = bank); pass_s(near); pushed_s(bank, i); mix(back_us_s(near)); mix(first_us_s[i]); mix(!(short) near); if ((short) near) mix(7); } show(' ');
    for (i = 0; i < 8; i++) { near = bank = from_us[i]; mix((unsigned short) near); mix((unsigned short) bank); mix((unsigned short) from_us[i]); { unsigned short y = near; mix(y); } { register unsigned short y = bank; mix(y); } kept_us = near; mix(kept_us); mix(kept_us = bank); pass_us(near); pushed_us(bank, i); mix(back_us_us(near)); mix(first_us_us[i]); mix(!(unsigned short) near); if ((unsigned short) near) mix(7); } show(' ');
    for (i = 0; i < 8; i++) { near = bank = from_us[i]; mix((int) near); mix((int) bank); mix((int) from_us[i]); { int y = near; mix(y); } { register int y = bank; mix(y); } kept_i = near; mix(kept_i); mix(kept_i = bank); pass_i(near); pushed_i(bank, i); mix(back_us_i(near)); mix(first_us_i[i]); mix(!(int) near); if ((int) near) mix(7); } show(' ');
    for (i = 0; i < 8; i++) { near = bank = from_us[i]; mix((unsigned int) near); mix((unsigned int) bank); mix((unsigned int) from_us[i]); { unsigned int y = near; mix(y); } { register unsigned int y = bank; mix(y); } kept_u = near; mix(kept_u); mix(kept_u = bank); pass_u(near); pushed_u(bank, i); mix(back_us_u(near)); mix(first_us_u[i]); mix(!(unsigned int) near); if ((unsigned int) near) mix(7); } show(' ');
    for (i = 0; i < 8; i++) { near = bank = from_us[i]; mix((long) near); mix((long) bank); mix((long) from_us[i]); { long y = near; mix(y); } { register long y = bank; mix(y); } kept_l = near; mix(kept_l); mix(kept_l = bank); pass_l(near); pushed_l(bank, i); mix(back_us_l(near)); mix(first_us_l[i]); mix(!(long) near); if ((long) near) mix(7); } show(' ');
    for (i = 0; i < 8; i++) { near = bank = from_us[i]; mix((unsigned long) near); mix((unsigned long) bank); mix((unsigned long) from_us[i]); { unsigned long y = near; mix(y); } { register unsigned long y = bank; mix(y); } kept_ul = near; mix(kept_ul); mix(kept_ul = bank); pass_ul(near); pushed_ul(bank, i); mix(back_us_ul(near)); mix(first_us_ul[i]); mix(!(unsigned long) near); if ((unsigned long) near) mix(7); } show(' ');
    putchar(10);
}
static int from_i[] = { (-32767 - 1), (-257), (-128), (-1), 0, 1, 15, 256, 32767 };
static unsigned char back_i_uc(int x) { return x; }
static unsigned char first_i_uc[] = { (-32767 - 1), (-257), (-128), (-1), 0, 1, 15, 256, 32767 };
static signed char back_i_sc(int x) { return x; }
static signed char first_i_sc[] = { (-32767 - 1), (-257), (-128), (-1), 0, 1, 15, 256, 32767 };
static short back_i_s(int x) { return x; }
static short first_i_s[] = { (-32767 - 1), (-257), (-128), (-1), 0, 1, 15, 256, 32767 };
static unsigned short back_i_us(int x) { return x; }
static unsigned short first_i_us[] = { (-32767 - 1), (-257), (-128), (-1), 0, 1, 15, 256, 32767 };
static int back_i_i(int x) { return x; }
static int first_i_i[] = { (-32767 - 1), (-257), (-128), (-1), 0, 1, 15, 256, 32767 };
static unsigned int back_i_u(int x) { return x; }
static unsigned int first_i_u[] = { (-32767 - 1), (-257), (-128), (-1), 0, 1, 15, 256, 32767 };
static long back_i_l(int x) { return x; }
static long first_i_l[] = { (-32767 - 1), (-257), (-128), (-1), 0, 1, 15, 256, 32767 };
static unsigned long back_i_ul(int x) { return x; }
static unsigned long first_i_ul[] = { (-32767 - 1), (-257), (-128), (-1), 0, 1, 15, 256, 32767 };
static void convert_i(void)
{
    int i; int near; register int bank;
    for (i = 0; i < 9; i++) { near = bank = from_i[i]; mix((unsigned char) near); mix((unsigned char) bank); mix((unsigned char) from_i[i]); { unsigned char y = near; mix(y); } { register unsigned char y = bank; mix(y); } kept_uc = near; mix(kept_uc); mix(kept_uc = bank); pass_uc(near); pushed_uc(bank, i); mix(back_i_uc(near)); mix(first_i_uc[i]); mix(!(unsigned char) near); if ((unsigned char) near) mix(7); } show(' ');
    for (i = 0; i < 9; i++) { near = bank = from_i[i]; mix((signed char) near); mix((signed char) bank); mix((signed char) from_i[i]); { signed char y = near; mix(y); } { register signed char y = bank; mix(y); } kept_sc = near; mix(kept_sc); mix(kept_sc = bank); pass_sc(near); pushed_sc(bank, i); mix(back_i_sc(near)); mix(first_i_sc[i]); mix(!(signed char) near); if ((signed char) near) mix(7); } show(' ');
    for (i = 0; i < 9; i++) { near = bank = from_i[i]; mix((short) near); mix((short) bank); mix((short) from_i[i]); { short y = near; mix(y); } { register short y = bank; mix(y); } kept_s = near; mix(kept_s); mix(kept_s = bank); pass_s(near); pushed_s(bank, i); mix(back_i_s(near)); mix(first_i_s[i]); mix(!(short) near); if ((short) near) mix(7); } show(' ');
    for (i = 0; i < 9; i++) { near = bank = from_i[i]; mix((unsigned short) near); mix((unsigned short) bank); mix((unsigned short) from_i[i]); { unsigned short y = near; mix(y); } { register unsigned short y = bank; mix(y); } kept_us = near; mix(kept_us); mix(kept_us = bank); pass_us(near); pushed_us(bank, i); mix(back_i_us(near)); mix(first_i_us[i]); mix(!(unsigned short) near); if ((unsigned short) near) mix(7); } show(' ');
    for (i = 0; i < 9; i++) { near = bank = from_i[i]; mix((int) near); mix((int) bank); mix((int) from_i[i]); { int y = near; mix(y); } { register int y = bank; mix(y); } kept_i = near; mix(kept_i); mix(kept_i = bank); pass_i(near); pushed_i(bank, i); mix(back_i_i(near)); mix(first_i_i[i]); mix(!(int) near); if ((int) near) mix(7); } show(' ');
    for (i = 0; i < 9; i++) { near = bank = from_i[i]; mix((unsigned int) near); mix((unsigned int) bank); mix((unsigned int) from_i[i]); { unsigned int y = near; mix(y); } { register unsigned int y = bank; mix(y); } kept_u = near; mix(kept_u); mix(kept_u = bank); pass_u(near); pushed_u(bank, i); mix(back_i_u(near)); mix(first_i_u[i]); mix(!(unsigned int) near); if ((unsigned int) near) mix(7); } show(' ');
    for (i = 0; i < 9; i++) { near = bank = from_i[i]; mix((long) near); mix((long) bank); mix((long) from_i[i]); { long y = near; mix(y); } { register long y = bank; mix(y); } kept_l = near; mix(kept_l); mix(kept_l = bank); pass_l(near); pushed_l(bank, i); mix(back_i_l(near)); mix(first_i_l[i]); mix(!(long) near); if ((long) near) mix(7); } show(' ');
    for (i = 0; i < 9; i++) { near = bank = from_i[i]; mix((unsigned long) near); mix((unsigned long) bank); mix((unsigned long) from_i[i]); { unsigned long y = near; mix(y); } { register unsigned long y = bank; mix(y); } kept_ul = near; mix(kept_ul); mix(kept_ul = bank); pass_ul(near); pushed_ul(bank, i); mix(back_i_ul(near)); mix(first_i_ul[i]); mix(!(unsigned long) near); if ((unsigned long) near) mix(7); } show(' ');
    putchar(10);
}
static unsigned int from_u[] = { 0u, 1u, 16u, 127u, 255u, 32768u, 40000u, 65535u };
static unsigned char back_u_uc(unsigned int x) { return x; }
static unsigned char first_u_uc[] = { 0u, 1u, 16u, 127u, 255u, 32768u, 40000u, 65535u };
static signed char back_u_sc(unsigned int x) { return x; }
static signed char first_u_sc[] = { 0u, 1u, 16u, 127u, 255u, 32768u, 40000u, 65535u };
static short back_u_s(unsigned int x) { return x; }
static short first_u_s[] = { 0u, 1u, 16u, 127u, 255u, 32768u, 40000u, 65535u };
static unsigned short back_u_us(unsigned int x) { return x; }
static unsigned short first_u_us[] = { 0u, 1u, 16u, 127u, 255u, 32768u, 40000u, 65535u };
static int back_u_i(unsigned int x) { return x; }
static int first_u_i[] = { 0u, 1u, 16u, 127u, 255u, 32768u, 40000u, 65535u };
static unsigned int back_u_u(unsigned int x) { return x; }
static unsigned int first_u_u[] = { 0u, 1u, 16u, 127u, 255u, 32768u, 40000u, 65535u };
static long back_u_l(unsigned int x) { return x; }
static long first_u_l[] = { 0u, 1u, 16u, 127u, 255u, 32768u, 40000u, 65535u };
static unsigned long back_u_ul(unsigned int x) { return x; }
static unsigned long first_u_ul[] = { 0u, 1u, 16u, 127u, 255u, 32768u, 40000u, 65535u };
static void convert_u(void)
{
    int i; unsigned int near; register unsigned int bank;
    for (i = 0; i < 8; i++) { near = bank = from_u[i]; mix((unsigned char) near); mix((unsigned char) bank); mix((unsigned char) from_u[i]); { unsigned char y = near; mix(y); } { register unsigned char y = bank; mix(y); } kept_uc = near; mix(kept_uc); mix(kept_uc = bank); pass_uc(near); pushed_uc(bank, i); mix(back_u_uc(near)); mix(first_u_uc[i]); mix(!(unsigned char) near); if ((unsigned char) near) mix(7); } show(' ');
    for (i = 0; i < 8; i++) { near = bank = from_u[i]; mix((signed char) near); mix((signed char) bank); mix((signed char) from_u[i]); { signed char y = near; mix(y); } { register signed char y = bank; mix(y); } kept_sc = near; mix(kept_sc); mix(kept_sc = bank); pass_sc(near); pushed_sc(bank, i); mix(back_u_sc(near)); mix(first_u_sc[i]); mix(!(signed char) near); if ((signed char) near) mix(7); } show(' ');
    for (i = 0; i < 8; i++) { near = bank = from_u[i]; mix((short) near); mix((short) bank); mix((short) from_u[i]); { short y = near; mix(y); } { register short y = bank; mix(y); } kept_s = near; mix(kept_s); mix(kept_s = bank); pass_s(near); pushed_s(bank, i); mix(back_u_s(near)); mix(first_u_s[i]); mix(!(short) near); if ((short) near) mix(7); } show(' ');
    for (i = 0; i < 8; i++) { near = bank = from_u[i]; mix((unsigned short) near); mix((unsigned short) bank); mix((unsigned short) from_u[i]); { unsigned short y = near; mix(y); } { register unsigned short y = bank; mix(y); } kept_us = near; mix(kept_us); mix(kept_us = bank); pass_us(near); pushed_us(bank, i); mix(back_u_us(near)); mix(first_u_us[i]); mix(!(unsigned short) near); if ((unsigned short) near) mix(7); } show(' ');
    for (i = 0; i < 8; i++) { near = bank = from_u[i]; mix((int) near); mix((int) bank); mix((int) from_u[i]); { int y = near; mix(y); } { register int y = bank; mix(y); } kept_i = near; mix(kept_i); mix(kept_i = bank); pass_i(near); pushed_i(bank, i); mix(back_u_i(near)); mix(first_u_i[i]); mix(!(int) near); if ((int) near) mix(7); } show(' ');
    for (i = 0; i < 8; i++) { near = bank = from_u[i]; mix((unsigned int) near); mix((unsigned int) bank); mix((unsigned int) from_u[i]); { unsigned int y = near; mix(y); } { register unsigned int y = bank; mix(y); } kept_u = near; mix(kept_u); mix(kept_u = bank); pass_u(near); pushed_u(bank, i); mix(back_u_u(near)); mix(first_u_u[i]); mix(!(unsigned int) near); if ((unsigned int) near) mix(7); } show(' ');
    for (i = 0; i < 8; i++) { near = bank = from_u[i]; mix((long) near); mix((long) bank); mix((long) from_u[i]); { long y = near; mix(y); } { register long y = bank; mix(y); } kept_l = near; mix(kept_l); mix(kept_l = bank); pass_l(near); pushed_l(bank, i); mix(back_u_l(near)); mix(first_u_l[i]); mix(!(long) near); if ((long) near) mix(7); } show(' ');
    for (i = 0; i < 8; i++) { near = bank = from_u[i]; mix((unsigned long) near); mix((unsigned long) bank); mix((unsigned long) from_u[i]); { unsigned long y = near; mix(y); } { register unsigned long y = bank; mix(y); } kept_ul = near; mix(kept_ul); mix(kept_ul = bank); pass_ul(near); pushed_ul(bank, i); mix(back_u_ul(near)); mix(first_u_ul[i]); mix(!(unsigned long) near); if ((unsigned long) near) mix(7); } show(' ');
    putchar(10);
}
static long from_l[] = { (-2147483647L - 1), (-65537L), (-32769L), (-1L), 0L, 1L, 255L, 65535L, 65536L, 2147483647L };
static unsigned char back_l_uc(long x) { return x; }
static unsigned char first_l_uc[] = { (-2147483647L - 1), (-65537L), (-32769L), (-1L), 0L, 1L, 255L, 65535L, 65536L, 2147483647L };
static signed char back_l_sc(long x) { return x; }
static signed char first_l_sc[] = { (-2147483647L - 1), (-65537L), (-32769L), (-1L), 0L, 1L, 255L, 65535L, 65536L, 2147483647L };
static short back_l_s(long x) { return x; }
static short first_l_s[] = { (-2147483647L - 1), (-65537L), (-32769L), (-1L), 0L, 1L, 255L, 65535L, 65536L, 2147483647L };
static unsigned short back_l_us(long x) { return x; }
static unsigned short first_l_us[] = { (-2147483647L - 1), (-65537L), (-32769L), (-1L), 0L, 1L, 255L, 65535L, 65536L, 2147483647L };
static int back_l_i(long x) { return x; }
static int first_l_i[] = { (-2147483647L - 1), (-65537L), (-32769L), (-1L), 0L, 1L, 255L, 65535L, 65536L, 2147483647L };
static unsigned int back_l_u(long x) { return x; }
static unsigned int first_l_u[] = { (-2147483647L - 1), (-65537L), (-32769L), (-1L), 0L, 1L, 255L, 65535L, 65536L, 2147483647L };
static long back_l_l(long x) { return x; }
static long first_l_l[] = { (-2147483647L - 1), (-65537L), (-32769L), (-1L), 0L, 1L, 255L, 65535L, 65536L, 2147483647L };
static unsigned long back_l_ul(long x) { return x; }
static unsigned long first_l_ul[] = { (-2147483647L - 1), (-65537L), (-32769L), (-1L), 0L, 1L, 255L, 65535L, 65536L, 2147483647L };
static void convert_l(void)
{
    int i; long near; register long bank;
    for (i = 0; i < 10; i++) { near = bank = from_l[i]; mix((unsigned char) near); mix((unsigned char) bank); mix((unsigned char) from_l[i]); { unsigned char y = near; mix(y); } { register unsigned char y = bank; mix(y); } kept_uc = near; mix(kept_uc); mix(kept_uc = bank); pass_uc(near); pushed_uc(bank, i); mix(back_l_uc(near)); mix(first_l_uc[i]); mix(!(unsigned char) near); if ((unsigned char) near) mix(7); } show(' ');
    for (i = 0; i < 10; i++) { near = bank = from_l[i]; mix((signed char) near); mix((signed char) bank); mix((signed char) from_l[i]); { signed char y = near; mix(y); } { register signed char y = bank; mix(y); } kept_sc = near; mix(kept_sc); mix(kept_sc = bank); pass_sc(near); pushed_sc(bank, i); mix(back_l_sc(near)); mix(first_l_sc[i]); mix(!(signed char) near); if ((signed char) near) mix(7); } show(' ');
    for (i = 0; i < 10; i++) { near = bank = from_l[i]; mix((short) near); mix((short) bank); mix((short) from_l[i]); { short y = near; mix(y); } { register short y = bank; mix(y); } kept_s = near; mix(kept_s); mix(kept_s = bank); pass_s(near); pushed_s(bank, i); mix(back_l_s(near)); mix(first_l_s[i]); mix(!(short) near); if ((short) near) mix(7); } show(' ');
    for (i = 0; i < 10; i++) { near = bank = from_l[i]; mix((unsigned short) near); mix((unsigned short) bank); mix((unsigned short) from_l[i]); { unsigned short y = near; mix(y); } { register unsigned short y = bank; mix(y); } kept_us = near; mix(kept_us); mix(kept_us = bank); pass_us(near); pushed_us(bank, i); mix(back_l_us(near)); mix(first_l_us[i]); mix(!(unsigned short) near); if ((unsigned short) near) mix(7); } show(' ');
    for (i = 0; i < 10; i++) { near = bank = from_l[i]; mix((int) near); mix((int) bank); mix((int) from_l[i]); { int y = near; mix(y); } { register int y = bank; mix(y); } kept_i = near; mix(kept_i); mix(kept_i = bank); pass_i(near); pushed_i(bank, i); mix(back_l_i(near)); mix(first_l_i[i]); mix(!(int) near); if ((int) near) mix(7); } show(' ');
    for (i = 0; i < 10; i++) { near = bank = from_l[i]; mix((unsigned int) near); mix((unsigned int) bank); mix((unsigned int) from_l[i]); { unsigned int y = near; mix(y); } { register unsigned int y = bank; mix(y); } kept_u = near; mix(kept_u); mix(kept_u = bank); pass_u(near); pushed_u(bank, i); mix(back_l_u(near)); mix(first_l_u[i]); mix(!(unsigned int) near); if ((unsigned int) near) mix(7); } show(' ');
    for (i = 0; i < 10; i++) { near = bank = from_l[i]; mix((long) near); mix((long) bank); mix((long) from_l[i]); { long y = near; mix(y); } { register long y = bank; mix(y); } kept_l = near; mix(kept_l); mix(kept_l = bank); pass_l(near); pushed_l(bank, i); mix(back_l_l(near)); mix(first_l_l[i]); mix(!(long) near); if ((long) near) mix(7); } show(' ');
    for (i = 0; i < 10; i++) { near = bank = from_l[i]; mix((unsigned long) near); mix((unsigned long) bank); mix((unsigned long) from_l[i]); { unsigned long y = near; mix(y); } { register unsigned long y = bank; mix(y); } kept_ul = near; mix(kept_ul); mix(kept_ul = bank); pass_ul(near); pushed_ul(bank, i); mix(back_l_ul(near)); mix(first_l_ul[i]); mix(!(unsigned long) near); if ((unsigned long) near) mix(7); } show(' ');
    putchar(10);
}
static unsigned long from_ul[] = { 0UL, 1UL, 31UL, 65535UL, 65536UL, 2147483647UL, 2147483648UL, 4294967295UL };
static unsigned char back_ul_uc(unsigned long x) { return x; }
static unsigned char first_ul_uc[] = { 0UL, 1UL, 31UL, 65535UL, 65536UL, 2147483647UL, 2147483648UL, 4294967295UL };
static signed char back_ul_sc(unsigned long x) { return x; }
static signed char first_ul_sc[] = { 0UL, 1UL, 31UL, 65535UL, 65536UL, 2147483647UL, 2147483648UL, 4294967295UL };
static short back_ul_s(unsigned long x) { return x; }
static short first_ul_s[] = { 0UL, 1UL, 31UL, 65535UL, 65536UL, 2147483647UL, 2147483648UL, 4294967295UL };
static unsigned short back_ul_us(unsigned long x) { return x; }
static unsigned short first_ul_us[] = { 0UL, 1UL, 31UL, 65535UL, 65536UL, 2147483647UL, 2147483648UL, 4294967295UL };
static int back_ul_i(unsigned long x) { return x; }
static int first_ul_i[] = { 0UL, 1UL, 31UL, 65535UL, 65536UL, 2147483647UL, 2147483648UL, 4294967295UL };
static unsigned int back_ul_u(unsigned long x) { return x; }
static unsigned int first_ul_u[] = { 0UL, 1UL, 31UL, 65535UL, 65536UL, 2147483647UL, 2147483648UL, 4294967295UL };
static long back_ul_l(unsigned long x) { return x; }
static long first_ul_l[] = { 0UL, 1UL, 31UL, 65535UL, 65536UL, 2147483647UL, 2147483648UL, 4294967295UL };
static unsigned long back_ul_ul(unsigned long x) { return x; }
static unsigned long first_ul_ul[] = { 0UL, 1UL, 31UL, 65535UL, 65536UL, 2147483647UL, 2147483648UL, 4294967295UL };
static void convert_ul(void)
{
    int i; unsigned long near; register unsigned long bank;
    for (i = 0; i < 8; i++) { near = bank = from_ul[i]; mix((unsigned char) near); mix((unsigned char) bank); mix((unsigned char) from_ul[i]); { unsigned char y = near; mix(y); } { register unsigned char y = bank; mix(y); } kept_uc = near; mix(kept_uc); mix(kept_uc = bank); pass_uc(near); pushed_uc(bank, i); mix(back_ul_uc(near)); mix(first_ul_uc[i]); mix(!(unsigned char) near); if ((unsigned char) near) mix(7); } show(' ');
    for (i = 0; i < 8; i++) { near = bank = from_ul[i]; mix((signed char) near); mix((signed char) bank); mix((signed char) from_ul[i]); { signed char y = near; mix(y); } { register signed char y = bank; mix(y); } kept_sc = near; mix(kept_sc); mix(kept_sc = bank); pass_sc(near); pushed_sc(bank, i); mix(back_ul_sc(near)); mix(first_ul_sc[i]); mix(!(signed char) near); if ((signed char) near) mix(7); } show(' ');
    for (i = 0; i < 8; i++) { near = bank = from_ul[i]; mix((short) near); mix((short) bank); mix((short) from_ul[i]); { short y = near; mix(y); } { register short y = bank; mix(y); } kept_s = near; mix(kept_s); mix(kept_s = bank); pass_s(near); pushed_s(bank, i); mix(back_ul_s(near)); mix(first_ul_s[i]); mix(!(short) near); if ((short) near) mix(7); } show(' ');
    for (i = 0; i < 8; i++) { near = bank = from_ul[i]; mix((unsigned short) near); mix((unsigned short) bank); mix((unsigned short) from_ul[i]); { unsigned short y = near; mix(y); } { register unsigned short y = bank; mix(y); } kept_us = near; mix(kept_us); mix(kept_us = bank); pass_us(near); pushed_us(bank, i); mix(back_ul_us(near)); mix(first_ul_us[i]); mix(!(unsigned short) near); if ((unsigned short) near) mix(7); } show(' ');
    for (i = 0; i < 8; i++) { near = bank = from_ul[i]; mix((int) near); mix((int) bank); mix((int) from_ul[i]); { int y = near; mix(y); } { register int y = bank; mix(y); } kept_i = near; mix(kept_i); mix(kept_i = bank); pass_i(near); pushed_i(bank, i); mix(back_ul_i(near)); mix(first_ul_i[i]); mix(!(int) near); if ((int) near) mix(7); } show(' ');
    for (i = 0; i < 8; i++) { near = bank = from_ul[i]; mix((unsigned int) near); mix((unsigned int) bank); mix((unsigned int) from_ul[i]); { unsigned int y = near; mix(y); } { register unsigned int y = bank; mix(y); } kept_u = near; mix(kept_u); mix(kept_u = bank); pass_u(near); pushed_u(bank, i); mix(back_ul_u(near)); mix(first_ul_u[i]); mix(!(unsigned int) near); if ((unsigned int) near) mix(7); } show(' ');
    for (i = 0; i < 8; i++) { near = bank = from_ul[i]; mix((long) near); mix((long) bank); mix((long) from_ul[i]); { long y = near; mix(y); } { register long y = bank; mix(y); } kept_l = near; mix(kept_l); mix(kept_l = bank); pass_l(near); pushed_l(bank, i); mix(back_ul_l(near)); mix(first_ul_l[i]); mix(!(long) near); if ((long) near) mix(7); } show(' ');
    for (i = 0; i < 8; i++) { near = bank = from_ul[i]; mix((unsigned long) near); mix((unsigned long) bank); mix((unsigned long) from_ul[i]); { unsigned long y = near; mix(y); } { register unsigned long y = bank; mix(y); } kept_ul = near; mix(kept_ul); mix(kept_ul = bank); pass_ul(near); pushed_ul(bank, i); mix(back_ul_ul(near)); mix(first_ul_ul[i]); mix(!(unsigned long) near); if ((unsigned long) near) mix(7); } show(' ');
    putchar(10);
}
int main(void)
{
    convert_uc();
    convert_sc();
    convert_s();
    convert_us();
    convert_i();
    convert_u();
    convert_l();
    convert_ul();
    return 0;
}
