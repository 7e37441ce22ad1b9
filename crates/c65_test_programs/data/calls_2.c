int putchar(int c);
static unsigned long sum;
static void mix(unsigned long v) { sum = sum + sum + sum + v; }
static void hex(unsigned long n, int digits) { if (digits > 1) hex(n >> 4, digits - 1); putchar("0123456789abcdef"[n & 15]); }
static void show(int end) { hex(sum, 8); putchar(end); sum = 0; }
static long f0(void)
{
    return 12345;
}
static short __cdecl__ f1(void)
{
    return 12345;
}
static unsigned int __fastcall__ f2(void)
{
    return 12345;
}
static unsigned char f3(p0) unsigned long p0;
{
    mix(p0);
    p0 += 3; mix(p0);
    return p0 * 1;
}
static long f4(long p0, ...)
{
    mix(p0);
    p0 += 3; mix(p0);
    return p0 * 1;
}
static unsigned char f5(void)
{
    return 12345;
}
static unsigned char f6(void)
{
    return 12345;
}
static unsigned long f7(int p0)
{
    mix(p0);
    p0 += 3; mix(p0);
    return p0 * 1;
}
static signed char __cdecl__ f8(unsigned short p0)
{
    mix(p0);
    p0 += 3; mix(p0);
    return p0 * 1;
}
static long __fastcall__ f9(unsigned int p0)
{
    mix(p0);
    p0 += 3; mix(p0);
    return p0 * 1;
}
static unsigned long f10(p0) short p0;
{
    mix(p0);
    p0 += 3; mix(p0);
    return p0 * 1;
}
static long f11(short p0, ...)
{
    mix(p0);
    p0 += 3; mix(p0);
    return p0 * 1;
}
static unsigned long f12(unsigned long p0)
{
    mix(p0);
    p0 += 3; mix(p0);
    return p0 * 1;
}
static unsigned char f13(register unsigned long p0)
{
    mix(p0);
    p0 += 3; mix(p0);
    return p0 * 1;
}
static unsigned long f14(short p0, short p1)
{
    mix(p0); mix(p1);
    p1 += 3; mix(p1);
    return p0 * 1 + p1 * 3;
}
static short __cdecl__ f15(unsigned char p0, short p1)
{
    mix(p0); mix(p1);
    p1 += 3; mix(p1);
    return p0 * 1 + p1 * 3;
}
static signed char __fastcall__ f16(short p0, int p1)
{
    mix(p0); mix(p1);
    p1 += 3; mix(p1);
    return p0 * 1 + p1 * 3;
}
static unsigned int f17(p0, p1) unsigned long p0; long p1;
{
    mix(p0); mix(p1);
    p1 += 3; mix(p1);
    return p0 * 1 + p1 * 3;
}
static long f18(long p0, signed char p1, ...)
{
    mix(p0); mix(p1);
    p1 += 3; mix(p1);
    return p0 * 1 + p1 * 3;
}
static signed char f19(short p0, unsigned int p1)
{
    mix(p0); mix(p1);
    p0 += 3; mix(p0);
    return p0 * 1 + p1 * 3;
}
static int f20(register signed char p0, register unsigned long p1)
{
    mix(p0); mix(p1);
    p0 += 3; mix(p0);
    return p0 * 1 + p1 * 3;
}
static unsigned int f21(unsigned short p0, unsigned char p1, short p2)
{
    mix(p0); mix(p1); mix(p2);
    p0 += 3; mix(p0);
    return p0 * 1 + p1 * 3 + p2 * 5;
}
static int __cdecl__ f22(signed char p0, unsigned char p1, unsigned long p2)
{
    mix(p0); mix(p1); mix(p2);
    p2 += 3; mix(p2);
    return p0 * 1 + p1 * 3 + p2 * 5;
}
static signed char __fastcall__ f23(short p0, short p1, unsigned int p2)
{
    mix(p0); mix(p1); mix(p2);
    p0 += 3; mix(p0);
    return p0 * 1 + p1 * 3 + p2 * 5;
}
static unsigned char f24(p0, p1, p2) signed char p0; unsigned int p1; signed char p2;
{
    mix(p0); mix(p1); mix(p2);
    p1 += 3; mix(p1);
    return p0 * 1 + p1 * 3 + p2 * 5;
}
static long f25(unsigned long p0, short p1, unsigned char p2, ...)
{
    mix(p0); mix(p1); mix(p2);
    p2 += 3; mix(p2);
    return p0 * 1 + p1 * 3 + p2 * 5;
}
static short f26(unsigned int p0, unsigned int p1, unsigned char p2)
{
    mix(p0); mix(p1); mix(p2);
    p0 += 3; mix(p0);
    return p0 * 1 + p1 * 3 + p2 * 5;
}
static unsigned short f27(register unsigned int p0, register short p1, register unsigned long p2)
{
    mix(p0); mix(p1); mix(p2);
    p2 += 3; mix(p2);
    return p0 * 1 + p1 * 3 + p2 * 5;
}
static unsigned char f28(int p0, unsigned short p1, unsigned long p2, int p3)
{
    mix(p0); mix(p1); mix(p2); mix(p3);
    p1 += 3; mix(p1);
    return p0 * 1 + p1 * 3 + p2 * 5 + p3 * 7;
}
static int __cdecl__ f29(short p0, short p1, int p2, long p3)
{
    mix(p0); mix(p1); mix(p2); mix(p3);
    p0 += 3; mix(p0);
    return p0 * 1 + p1 * 3 + p2 * 5 + p3 * 7;
}
static short __fastcall__ f30(unsigned char p0, short p1, long p2, long p3)
{
    mix(p0); mix(p1); mix(p2); mix(p3);
    p1 += 3; mix(p1);
    return p0 * 1 + p1 * 3 + p2 * 5 + p3 * 7;
}
static signed char f31(p0, p1, p2, p3) unsigned char p0; signed char p1; unsigned short p2; unsigned long p3;
{
    mix(p0); mix(p1); mix(p2); mix(p3);
    p1 += 3; mix(p1);
    return p0 * 1 + p1 * 3 + p2 * 5 + p3 * 7;
}
static short f32(unsigned int p0, unsigned int p1, long p2, int p3, ...)
{
    mix(p0); mix(p1); mix(p2); mix(p3);
    p3 += 3; mix(p3);
    return p0 * 1 + p1 * 3 + p2 * 5 + p3 * 7;
}
static unsigned short f33(unsigned short p0, unsigned short p1, unsigned short p2, unsigned char p3)
{
    mix(p0); mix(p1); mix(p2); mix(p3);
    p3 += 3; mix(p3);
    return p0 * 1 + p1 * 3 + p2 * 5 + p3 * 7;
}
static long f34(register unsigned int p0, register unsigned int p1, register int p2, register unsigned int p3)
{
    mix(p0); mix(p1); mix(p2); mix(p3);
    p2 += 3; mix(p2);
    return p0 * 1 + p1 * 3 + p2 * 5 + p3 * 7;
}
static unsigned long f35(unsigned short p0, short p1, signed char p2, unsigned long p3, unsigned int p4)
{
    mix(p0); mix(p1); mix(p2); mix(p3); mix(p4);
    p2 += 3; mix(p2);
    return p0 * 1 + p1 * 3 + p2 * 5 + p3 * 7 + p4 * 9;
}
int main(void)
{
    { mix(f0()); mix(5 + f0()); mix(f0() - 1L); show(10); }
    { mix(f1()); mix(5 + f1()); mix(f1() - 1L); show(10); }
    { mix(f2()); mix(5 + f2()); mix(f2() - 1L); show(10); }
    { mix(f3(65535UL)); mix(5 + f3(2147483648UL)); mix(f3(31UL) - 1L); show(10); }
    { mix(f4(((unsigned char) 1))); mix(5 + f4((-1L), 0UL)); mix(f4((-257), ((unsigned char) 0), ((short) -1)) - 1L); show(10); }
    { static unsigned char (*p)(void) = f5; mix(p()); mix(5 + (*p)()); mix(p() - 1L); show(10); }
    { mix(f6()); mix(5 + f6()); mix(f6() - 1L); show(10); }
    { mix(f7(((short) -256))); mix(5 + f7(2147483647L)); mix(f7(1UL) - 1L); show(10); }
    { mix(f8(((signed char) 0))); mix(5 + f8(1L)); mix(f8(65535u) - 1L); show(10); }
    { mix(f9(((signed char) 0))); mix(5 + f9(1)); mix(f9((-65537L)) - 1L); show(10); }
    { mix(f10(((short) 3))); mix(5 + f10(((short) 3))); mix(f10(((short) 255)) - 1L); show(10); }
    { mix(f11((-257))); mix(5 + f11(65536L, 1UL)); mix(f11(((unsigned char) 0), ((signed char) -128), ((short) 3)) - 1L); show(10); }
    { static unsigned long (*p)(unsigned long) = f12; mix(p(((signed char) 0))); mix(5 + (*p)(15)); mix(p(((unsigned char) 200)) - 1L); show(10); }
    { mix(f13(255u)); mix(5 + f13(0L)); mix(f13(((unsigned char) 127)) - 1L); show(10); }
    { mix(f14(((short) 3), 32768u)); mix(5 + f14(((short) -32767), 256)); mix(f14(((short) 3), 255u) - 1L); show(10); }
    { mix(f15((-32767 - 1), ((unsigned char) 128))); mix(5 + f15(((unsigned short) 256), (-1))); mix(f15(((unsigned char) 2), ((signed char) 1)) - 1L); show(10); }
    { mix(f16(0L, ((unsigned short) 256))); mix(5 + f16(((short) -256), 31UL)); mix(f16(32768u, (-2147483647L - 1)) - 1L); show(10); }
    { mix(f17(2147483648UL, (-1L))); mix(5 + f17(31UL, 255L)); mix(f17(65535UL, (-65537L)) - 1L); show(10); }
    { mix(f18(65536UL, ((unsigned short) 0))); mix(5 + f18(((unsigned short) 1), ((unsigned short) 0), (-1))); mix(f18(256, 15, ((short) 32767), (-257)) - 1L); show(10); }
    { static signed char (*p)(short, unsigned int) = f19; mix(p(40000u, ((signed char) -2))); mix(5 + (*p)(40000u, 16u)); mix(p(1u, 255u) - 1L); show(10); }
    { mix(f20(((short) -32768), ((short) -32767))); mix(5 + f20(40000u, ((unsigned short) 256))); mix(f20(1u, ((signed char) -1)) - 1L); show(10); }
    { mix(f21(2147483647L, 255u, 65536UL)); mix(5 + f21(((short) -32768), ((unsigned short) 32768), 65535UL)); mix(f21(16u, ((short) -32767), ((unsigned char) 1)) - 1L); show(10); }
    { mix(f22(256, (-257), ((short) -32768))); mix(5 + f22(((short) -32767), 1, (-1L))); mix(f22(((unsigned short) 255), ((short) 0), (-1)) - 1L); show(10); }
    { mix(f23((-1L), 1UL, ((unsigned char) 7))); mix(5 + f23(((signed char) -128), (-65537L), 65536UL)); mix(f23(0, 1, ((unsigned char) 128)) - 1L); show(10); }
    { mix(f24(((signed char) -1), 127u, ((signed char) -1))); mix(5 + f24(((signed char) 7), 127u, ((signed char) 127))); mix(f24(((signed char) -127), 1u, ((signed char) -1)) - 1L); show(10); }
    { mix(f25(32767, (-32769L), ((unsigned short) 32767))); mix(5 + f25(65535UL, 16u, (-1), 40000u)); mix(f25(65535L, ((unsigned short) 65535), ((unsigned short) 0), 16u, (-1L)) - 1L); show(10); }
    { static short (*p)(unsigned int, unsigned int, unsigned char) = f26; mix(p(((signed char) -127), 255L, 1L)); mix(5 + (*p)(0UL, 65536UL, 32768u)); mix(p(32767, ((short) 3), ((short) 3)) - 1L); show(10); }
    { mix(f27(((short) -32768), ((short) -1), ((unsigned short) 9))); mix(5 + f27(1L, 255u, ((unsigned char) 127))); mix(f27((-65537L), 65536UL, 65536UL) - 1L); show(10); }
    { mix(f28(0, 256, ((unsigned char) 2), ((unsigned short) 256))); mix(5 + f28(2147483647UL, ((short) -256), (-128), 1UL)); mix(f28(((unsigned short) 65535), 65536L, 2147483648UL, ((short) -1)) - 1L); show(10); }
    { mix(f29(((signed char) 0), ((unsigned char) 127), 65535L, ((short) 3))); mix(5 + f29(32768u, ((unsigned char) 2), 32767, ((unsigned short) 255))); mix(f29(((short) 255), 0UL, ((short) 255), ((unsigned short) 256)) - 1L); show(10); }
    { mix(f30(((unsigned char) 255), 255L, 1L, ((short) 0))); mix(5 + f30(((unsigned short) 9), 16u, ((unsigned short) 255), ((signed char) -2))); mix(f30((-32767 - 1), (-32769L), (-1L), 65536L) - 1L); show(10); }
    { mix(f31(((unsigned char) 128), ((signed char) -1), ((unsigned short) 32767), 31UL)); mix(5 + f31(((unsigned char) 255), ((signed char) -2), ((unsigned short) 32767), 4294967295UL)); mix(f31(((unsigned char) 128), ((signed char) -2), ((unsigned short) 9), 1UL) - 1L); show(10); }
    { mix(f32(((short) -1), 1, 1UL, ((short) -256))); mix(5 + f32(1, 65535UL, ((short) -32767), ((signed char) 7), 255u)); mix(f32(0u, 40000u, 31UL, ((signed char) 7), ((unsigned short) 255), ((unsigned char) 128)) - 1L); show(10); }
    { static unsigned short (*p)(unsigned short, unsigned short, unsigned short, unsigned char) = f33; mix(p(((signed char) -1), 127u, ((short) -32768), 2147483647UL)); mix(5 + (*p)(((short) -1), ((unsigned char) 128), ((short) -32767), 31UL)); mix(p(((unsigned char) 1), ((short) 32767), ((signed char) 7), (-32767 - 1)) - 1L); show(10); }
    { mix(f34((-32769L), 65535u, ((unsigned short) 1), 0u)); mix(5 + f34(2147483648UL, ((signed char) -127), 65535u, ((unsigned short) 256))); mix(f34(255u, 65536L, (-1), 31UL) - 1L); show(10); }
    { mix(f35(((signed char) 0), ((unsigned short) 256), (-1), (-128), (-257))); mix(5 + f35(1, ((unsigned short) 1), 255u, (-65537L), 1)); mix(f35(0u, ((signed char) -128), ((unsigned short) 9), (-1), 65535UL) - 1L); show(10); }
    return 0;
}
