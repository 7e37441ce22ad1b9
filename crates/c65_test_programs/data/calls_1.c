int putchar(int c);
static unsigned long sum;
static void mix(unsigned long v) { sum = sum + sum + sum + v; }
static void hex(unsigned long n, int digits) { if (digits > 1) hex(n >> 4, digits - 1); putchar("0123456789abcdef"[n & 15]); }
static void show(int end) { hex(sum, 8); putchar(end); sum = 0; }
static signed char f0(void)
{
    return 12345;
}
static unsigned char __cdecl__ f1(void)
{
    return 12345;
}
static short __fastcall__ f2(void)
{
    return 12345;
}
static long f3(p0) unsigned int p0;
{
    mix(p0);
    p0 += 3; mix(p0);
    return p0 * 1;
}
static unsigned int f4(unsigned int p0, ...)
{
    mix(p0);
    p0 += 3; mix(p0);
    return p0 * 1;
}
static short f5(void)
{
    return 12345;
}
static unsigned int f6(void)
{
    return 12345;
}
static signed char f7(unsigned long p0)
{
    mix(p0);
    p0 += 3; mix(p0);
    return p0 * 1;
}
static int __cdecl__ f8(unsigned long p0)
{
    mix(p0);
    p0 += 3; mix(p0);
    return p0 * 1;
}
static unsigned int __fastcall__ f9(short p0)
{
    mix(p0);
    p0 += 3; mix(p0);
    return p0 * 1;
}
static unsigned int f10(p0) short p0;
{
    mix(p0);
    p0 += 3; mix(p0);
    return p0 * 1;
}
static unsigned short f11(signed char p0, ...)
{
    mix(p0);
    p0 += 3; mix(p0);
    return p0 * 1;
}
static short f12(signed char p0)
{
    mix(p0);
    p0 += 3; mix(p0);
    return p0 * 1;
}
static long f13(register unsigned long p0)
{
    mix(p0);
    p0 += 3; mix(p0);
    return p0 * 1;
}
static short f14(short p0, short p1)
{
    mix(p0); mix(p1);
    p1 += 3; mix(p1);
    return p0 * 1 + p1 * 3;
}
static short __cdecl__ f15(unsigned long p0, long p1)
{
    mix(p0); mix(p1);
    p1 += 3; mix(p1);
    return p0 * 1 + p1 * 3;
}
static unsigned long __fastcall__ f16(unsigned long p0, unsigned short p1)
{
    mix(p0); mix(p1);
    p0 += 3; mix(p0);
    return p0 * 1 + p1 * 3;
}
static unsigned int f17(p0, p1) unsigned char p0; unsigned long p1;
{
    mix(p0); mix(p1);
    p0 += 3; mix(p0);
    return p0 * 1 + p1 * 3;
}
static unsigned int f18(unsigned int p0, unsigned char p1, ...)
{
    mix(p0); mix(p1);
    p1 += 3; mix(p1);
    return p0 * 1 + p1 * 3;
}
static signed char f19(int p0, unsigned int p1)
{
    mix(p0); mix(p1);
    p1 += 3; mix(p1);
    return p0 * 1 + p1 * 3;
}
static signed char f20(register signed char p0, register unsigned long p1)
{
    mix(p0); mix(p1);
    p0 += 3; mix(p0);
    return p0 * 1 + p1 * 3;
}
static unsigned int f21(long p0, unsigned short p1, unsigned short p2)
{
    mix(p0); mix(p1); mix(p2);
    p1 += 3; mix(p1);
    return p0 * 1 + p1 * 3 + p2 * 5;
}
static short __cdecl__ f22(unsigned short p0, unsigned short p1, unsigned long p2)
{
    mix(p0); mix(p1); mix(p2);
    p2 += 3; mix(p2);
    return p0 * 1 + p1 * 3 + p2 * 5;
}
static unsigned char __fastcall__ f23(long p0, int p1, unsigned short p2)
{
    mix(p0); mix(p1); mix(p2);
    p0 += 3; mix(p0);
    return p0 * 1 + p1 * 3 + p2 * 5;
}
static signed char f24(p0, p1, p2) long p0; unsigned long p1; long p2;
{
    mix(p0); mix(p1); mix(p2);
    p0 += 3; mix(p0);
    return p0 * 1 + p1 * 3 + p2 * 5;
}
static int f25(unsigned int p0, long p1, unsigned short p2, ...)
{
    mix(p0); mix(p1); mix(p2);
    p1 += 3; mix(p1);
    return p0 * 1 + p1 * 3 + p2 * 5;
}
static long f26(unsigned long p0, unsigned long p1, long p2)
{
    mix(p0); mix(p1); mix(p2);
    p1 += 3; mix(p1);
    return p0 * 1 + p1 * 3 + p2 * 5;
}
static int f27(register unsigned int p0, register long p1, register unsigned long p2)
{
    mix(p0); mix(p1); mix(p2);
    p0 += 3; mix(p0);
    return p0 * 1 + p1 * 3 + p2 * 5;
}
static int f28(long p0, short p1, signed char p2, unsigned short p3)
{
    mix(p0); mix(p1); mix(p2); mix(p3);
    p2 += 3; mix(p2);
    return p0 * 1 + p1 * 3 + p2 * 5 + p3 * 7;
}
static unsigned int __cdecl__ f29(short p0, unsigned int p1, unsigned short p2, signed char p3)
{
    mix(p0); mix(p1); mix(p2); mix(p3);
    p1 += 3; mix(p1);
    return p0 * 1 + p1 * 3 + p2 * 5 + p3 * 7;
}
static unsigned long __fastcall__ f30(unsigned short p0, signed char p1, long p2, long p3)
{
    mix(p0); mix(p1); mix(p2); mix(p3);
    p2 += 3; mix(p2);
    return p0 * 1 + p1 * 3 + p2 * 5 + p3 * 7;
}
static int f31(p0, p1, p2, p3) short p0; short p1; unsigned long p2; int p3;
{
    mix(p0); mix(p1); mix(p2); mix(p3);
    p2 += 3; mix(p2);
    return p0 * 1 + p1 * 3 + p2 * 5 + p3 * 7;
}
static long f32(unsigned int p0, int p1, unsigned long p2, int p3, ...)
{
    mix(p0); mix(p1); mix(p2); mix(p3);
    p3 += 3; mix(p3);
    return p0 * 1 + p1 * 3 + p2 * 5 + p3 * 7;
}
static int f33(short p0, long p1, int p2, unsigned int p3)
{
    mix(p0); mix(p1); mix(p2); mix(p3);
    p2 += 3; mix(p2);
    return p0 * 1 + p1 * 3 + p2 * 5 + p3 * 7;
}
static unsigned int f34(register unsigned char p0, register unsigned long p1, register int p2, register int p3)
{
    mix(p0); mix(p1); mix(p2); mix(p3);
    p3 += 3; mix(p3);
    return p0 * 1 + p1 * 3 + p2 * 5 + p3 * 7;
}
static unsigned short f35(int p0, signed char p1, unsigned short p2, int p3, unsigned char p4)
{
    mix(p0); mix(p1); mix(p2); mix(p3); mix(p4);
    p0 += 3; mix(p0);
    return p0 * 1 + p1 * 3 + p2 * 5 + p3 * 7 + p4 * 9;
}
int main(void)
{
    { mix(f0()); mix(5 + f0()); mix(f0() - 1L); show(10); }
    { mix(f1()); mix(5 + f1()); mix(f1() - 1L); show(10); }
    { mix(f2()); mix(5 + f2()); mix(f2() - 1L); show(10); }
    { mix(f3(40000u)); mix(5 + f3(40000u)); mix(f3(16u) - 1L); show(10); }
    { mix(f4(0UL)); mix(5 + f4(65535UL, 32767)); mix(f4(((short) 255), 65536L, ((short) -256)) - 1L); show(10); }
    { static short (*p)(void) = f5; mix(p()); mix(5 + (*p)()); mix(p() - 1L); show(10); }
    { mix(f6()); mix(5 + f6()); mix(f6() - 1L); show(10); }
    { mix(f7(((short) -32768))); mix(5 + f7((-2147483647L - 1))); mix(f7(((short) 32767)) - 1L); show(10); }
    { mix(f8(((signed char) -128))); mix(5 + f8(32767)); mix(f8(65535UL) - 1L); show(10); }
    { mix(f9(((signed char) 0))); mix(5 + f9(((short) 255))); mix(f9(65535u) - 1L); show(10); }
    { mix(f10(((short) -32767))); mix(5 + f10(((short) -256))); mix(f10(((short) -1)) - 1L); show(10); }
    { mix(f11(((short) 255))); mix(5 + f11(4294967295UL, 65535L)); mix(f11(((unsigned char) 127), ((unsigned char) 2), ((unsigned char) 2)) - 1L); show(10); }
    { static short (*p)(signed char) = f12; mix(p((-32767 - 1))); mix(5 + (*p)(((signed char) -2))); mix(p(((unsigned char) 2)) - 1L); show(10); }
    { mix(f13(((short) -32767))); mix(5 + f13(65536UL)); mix(f13((-128)) - 1L); show(10); }
    { mix(f14(256, 1)); mix(5 + f14(((unsigned short) 1), (-32767 - 1))); mix(f14(((unsigned char) 1), 256) - 1L); show(10); }
    { mix(f15(2147483647L, 0UL)); mix(5 + f15(((unsigned short) 256), ((unsigned short) 255))); mix(f15(255L, ((short) 0)) - 1L); show(10); }
    { mix(f16(((short) 0), ((unsigned char) 1))); mix(5 + f16(2147483648UL, ((unsigned short) 255))); mix(f16(16u, 15) - 1L); show(10); }
    { mix(f17(((unsigned char) 200), 4294967295UL)); mix(5 + f17(((unsigned char) 128), 65535UL)); mix(f17(((unsigned char) 1), 31UL) - 1L); show(10); }
    { mix(f18(((unsigned short) 0), 40000u)); mix(5 + f18(((short) 3), ((unsigned short) 65535), ((signed char) 1))); mix(f18(((unsigned short) 32768), ((unsigned char) 255), 256, (-65537L)) - 1L); show(10); }
    { static signed char (*p)(int, unsigned int) = f19; mix(p(((short) 255), ((short) -32768))); mix(5 + (*p)(((unsigned short) 65535), 1)); mix(p(0u, ((signed char) 0)) - 1L); show(10); }
    { mix(f20(((signed char) 0), 31UL)); mix(5 + f20(((signed char) -1), (-1L))); mix(f20(0UL, (-65537L)) - 1L); show(10); }
    { mix(f21(65536UL, 255u, (-32769L))); mix(5 + f21(((short) 255), ((unsigned short) 255), (-1L))); mix(f21(((unsigned short) 32767), 255u, 15) - 1L); show(10); }
    { mix(f22(0UL, ((unsigned short) 255), ((signed char) -127))); mix(5 + f22(2147483647L, (-32767 - 1), ((unsigned short) 9))); mix(f22(2147483648UL, 0L, 256) - 1L); show(10); }
    { mix(f23(((unsigned char) 255), ((signed char) 127), ((unsigned short) 9))); mix(5 + f23(32767, 40000u, 1u)); mix(f23(((unsigned short) 9), ((unsigned short) 32767), 32768u) - 1L); show(10); }
    { mix(f24((-65537L), 0UL, 65535L)); mix(5 + f24((-65537L), 2147483647UL, 65536L)); mix(f24(1L, 2147483647UL, 1L) - 1L); show(10); }
    { mix(f25(((signed char) 7), (-32767 - 1), ((signed char) -127))); mix(5 + f25(16u, ((unsigned short) 9), ((signed char) -127), 127u)); mix(f25(((unsigned char) 127), ((signed char) -128), ((short) -32768), ((unsigned char) 1), ((short) 0)) - 1L); show(10); }
    { static long (*p)(unsigned long, unsigned long, long) = f26; mix(p(((short) 255), ((unsigned char) 255), 32767)); mix(5 + (*p)(2147483647UL, ((signed char) -2), ((unsigned short) 256))); mix(p(40000u, ((signed char) -127), ((unsigned short) 9)) - 1L); show(10); }
    { mix(f27(((unsigned short) 32767), 31UL, ((signed char) 127))); mix(5 + f27(((signed char) -127), 65536UL, ((unsigned short) 0))); mix(f27(((unsigned short) 255), ((short) -256), ((unsigned short) 256)) - 1L); show(10); }
    { mix(f28(((unsigned short) 1), ((signed char) -127), ((unsigned short) 32768), ((short) 255))); mix(5 + f28(((unsigned char) 128), ((short) 255), 1UL, ((short) 32767))); mix(f28(2147483647UL, ((short) -32767), 40000u, (-32767 - 1)) - 1L); show(10); }
    { mix(f29(1UL, ((short) 32767), ((unsigned char) 0), (-32767 - 1))); mix(5 + f29(32768u, ((unsigned short) 256), 2147483647UL, 1L)); mix(f29(((short) -32768), ((signed char) 7), ((short) 0), ((short) -256)) - 1L); show(10); }
    { mix(f30(((unsigned short) 1), 2147483647UL, ((unsigned char) 2), ((unsigned char) 255))); mix(5 + f30(((unsigned short) 32768), ((unsigned short) 32768), 1UL, 2147483648UL)); mix(f30(1UL, 65535L, ((signed char) 127), 127u) - 1L); show(10); }
    { mix(f31(((short) 0), ((short) 255), 2147483648UL, 1)); mix(5 + f31(((short) -32768), ((short) -256), 65535UL, 15)); mix(f31(((short) -256), ((short) 0), 4294967295UL, 0) - 1L); show(10); }
    { mix(f32(32768u, 15, ((unsigned short) 0), 1L)); mix(5 + f32(((short) -256), ((unsigned char) 127), 32768u, ((unsigned short) 255), 4294967295UL)); mix(f32(((short) -32767), ((signed char) -2), ((short) -256), ((short) 0), ((unsigned short) 65535), 31UL) - 1L); show(10); }
    { static int (*p)(short, long, int, unsigned int) = f33; mix(p(0L, ((unsigned char) 0), 65535L, ((unsigned short) 32768))); mix(5 + (*p)(((unsigned short) 65535), ((signed char) 127), ((unsigned short) 1), ((signed char) -127))); mix(p(((unsigned char) 1), (-128), ((unsigned short) 255), 65536L) - 1L); show(10); }
    { mix(f34(15, ((signed char) -128), ((unsigned char) 2), ((signed char) -2))); mix(5 + f34(((unsigned char) 255), 0, ((unsigned short) 32768), (-1))); mix(f34(256, 16u, ((unsigned short) 255), 32767) - 1L); show(10); }
    { mix(f35((-128), ((short) 0), ((unsigned short) 32767), 31UL, ((unsigned short) 65535))); mix(5 + f35(((unsigned short) 65535), 2147483647UL, (-65537L), (-1L), ((unsigned char) 200))); mix(f35(40000u, 65535L, ((unsigned char) 0), 1, ((unsigned short) 256)) - 1L); show(10); }
    return 0;
}
