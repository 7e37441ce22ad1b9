int putchar(int c);
unsigned long h;
void hex(unsigned long n, int d) { if (d > 1) hex(n >> 4, d - 1); putchar("0123456789abcdef"[n & 15]); }
void mix(unsigned long v) { h = (h << 5 | h >> 27) ^ v; }
struct S { int a; unsigned char b; long c; signed char d; unsigned long e; unsigned p : 3, q : 6; signed int s : 5; unsigned t : 16; signed x : 11; };
unsigned char guc = ((unsigned char)194);
signed char gsc = ((signed char)10);
short gs = ((short)127);
unsigned short gus = ((unsigned short)65535);
int gi = 19877;
unsigned gu = 23465u;
long gl = (-394652141L);
unsigned long gul = 2UL;
unsigned char gauc[8] = { ((unsigned char)231), ((unsigned char)231), ((unsigned char)255), ((unsigned char)180), ((unsigned char)230), ((unsigned char)1), ((unsigned char)230), ((unsigned char)84) };
int gai[4] = { 1, 7, (-5701), 127 };
long gal[4] = { 32767L, 267488770L, (-1938321754L), 400599612L };
unsigned short gaus[2] = { ((unsigned short)26137), ((unsigned short)51448) };
struct S gz, gz2;
unsigned char f0(unsigned p0, signed char p1, unsigned short p2)
{
    {
        static unsigned long st1 = 7UL;
        {
            int v2 = !(st1++);
            register unsigned short v3 = (gz.e * (gs * p2));
            if (((v3 |= gz2.q) > (128UL || gz.a))) return (signed char)((2 << (4022321566UL & 15)));
            { int n4; for (n4 = 0; n4 < 3 && v2; n4++) {
                mix((--gul + !((2u / (1L | 1)))));
            } }
            switch (((gal[1] += gal[1]) ^ (guc ^ gz2.e)) & 7) {
            case 6:
                (gz2.s &= -((gz2.a &= gauc[4])));
                break;
            case 7:
                if (((gz2.c / (v2 | 1)) / ((gs | 2) | 1))) {
                    (st1 += ((8553 | gz2.d) <= ((-21250) << (13009 & 15))));
                }
                break;
            case 5:
                {
                    long v5 = ((2769999091UL % (0 | 1)) ^ 62029u);
                    mix((((gaus[0] || gz.q) ? 7u : (128 + 556803596L)) ? ((1u - 32767L) > --gul) : (short)((gu || 3))));
                    mix((gz.b++ >= (long)((gz2.q + gz.a))));
                    mix(((-(637381822UL) ^ (gz2.x || gz.t)) / (--gz.a | 1)));
                    (gz.t += (v5 |= (gi ? p1 : gs)));
                }
                break;
            case 2:
                mix(((gz2.s <<= ((p1 < gi) & 15)) > (gz.b = (gz2.c >> (15 & 31)))));
            default:
                mix((gz.s |= ((2 ? gu : gai[2]) * (gl || gai[0]))));
            }
        }
        (gz.t = ((signed char)(gz2.s) >> ((gauc[6] || gul) & 15)));
        { int n6; for (n6 = 0; n6 < 1 && (gi > gs); n6++) {
            if ((gz.b = (p0 |= gul))) {
                (gz2.p -= ((gz2.e ^ 5147u) * (3 + gi)));
            }
        } }
        mix((signed char)(((256 * gauc[0]) + (gz.q >> (gz.t & 15)))));
    }
    return ++gl;
}
short f1(unsigned short p0)
{
    {
        register long v7 = (gsc = (gai[3] % (100u | 1)));
        { int n8; for (n8 = 0; n8 < 3 && (gz2.b & 2L); n8++) {
            switch (!((gaus[1] ? gz.d : gz.x)) & 7) {
            default:
                if ((short)((p0 - gz2.a))) return ((gz.x != 7) | gauc[1]);
            case 7:
                (gz.q = ((gai[3] % (gz2.t | 1)) && gz.c));
                break;
            case 5:
                if (((gz2.d % (gz.e | 1)) % (gz.a++ | 1))) {
                    mix((gz.q * !((gz.p | 9031u))));
                } else {
                    mix((((2 == gus) >= (guc & gi)) % ((4UL | (gz.c ? 1UL : gz.x)) | 1)));
                }
                break;
            case 6:
                (gz2.p = ((gz2.q = gz2.p) & (gz2.q << (gus & 15))));
            }
        } }
        switch (((gu - gz.t) << ((127 + 256) & 15)) & 7) {
        case 6:
            if ((gz2.q - gz2.x)) return ((gai[3] /= (gi | 1)) - ~(3));
            break;
        case 2:
            if (((gz.a ^= gz2.s) | (424775559UL / (4L | 1)))) return f0(p0, gus, 256u);
            break;
        case 3:
            (gz.q = ((0 ^ gz.t) % ((gai[1] && gi) | 1)));
            break;
        case 7:
            --gz2.x;
        }
        switch (!(++gsc) & 3) {
        case 1:
            if ((unsigned)((gz.a * gz.q))) return ((unsigned short)((-1461278862L)) + (3813u * gai[2]));
            break;
        case 2:
            { int n9; for (n9 = 0; n9 < 1 && 0u; n9++) {
                ++gauc[3];
            } }
        }
    }
    return ((gul ^ gz2.c) << 8);
}
signed char f2(unsigned char *p0, unsigned char *p1)
{
    {
        static short st10 = ((short)27995);
        (gai[0] = (unsigned char)((gz2.x = 127)));
        if ((f0(64050u, 1127199496UL, gs) >> 3)) {
            if (((gz.q ? gz.b : p1[5]) + (gz.e = gz.x))) {
                if (((gai[2] += gus) & f1(999u))) return (7 > f1(gz.e));
            }
        } else {
            { signed char n11 = 2; while (--n11 >= 0 && ((-3824) * st10)) {
                { signed char n12 = 2; while (--n12 >= 0 && (st10 % (gz.t | 1))) {
                    mix((guc *= ((gz2.e >> (gz.c & 31)) ? (gz2.a << (gz.d & 15)) : (gz2.e * 256L))));
                } }
            } }
        }
        if ((gl *= (gz.p | 5939u))) {
            (gz.e = ((gz2.a << (0u & 15)) != (gauc[0] = gz2.b)));
        } else {
            mix((++gz.p + ((gs ^ p1[0]) > (gz2.c ? gz2.a : gu))));
        }
        mix((gz.t %= (((gs ^ gaus[0]) >= ((-806303572L) - gal[2])) | 1)));
    }
    return ((gz.x = gl) + ((-54775255L) >> (gauc[5] & 31)));
}
short f3(long *p0)
{
    {
        register unsigned char v13 = (gus *= gi++);
        { signed char n14 = 3; while (--n14 >= 0 && (1L % (10u | 1))) {
            { int n15; for (n15 = 0; n15 < 3 && gz2.x--; n15++) {
                if ((gsc -= (gz2.t & gai[2]))) {
                    mix(f2(gauc, gauc));
                } else {
                    (gz.d >>= ((3u | (gauc[6] | guc)) & 15));
                }
            } }
        } }
        (gz2.c *= ((gai[1] - gz2.c) & (gauc[5] >> (gi & 15))));
        (gz2.a |= ((gi >> (v13 & 15)) | (gz.p ^ 25609u)));
    }
    return ((gz2.d >> 3) + (128L && gz.q));
}
int main(void)
{
    mix(f0(22637u, ((signed char)7), ((unsigned short)41305))); hex(h, 8); putchar(10);
    mix(f0(3532u, ((signed char)4), ((unsigned short)128))); hex(h, 8); putchar(10);
    mix(f1(((unsigned short)10))); hex(h, 8); putchar(10);
    mix(f1(((unsigned short)19078))); hex(h, 8); putchar(10);
    mix(f2(gauc, gauc)); hex(h, 8); putchar(10);
    mix(f2(gauc, gauc)); hex(h, 8); putchar(10);
    mix(f3(gal)); hex(h, 8); putchar(10);
    mix(f3(gal)); hex(h, 8); putchar(10);
    mix(guc);
    mix(gsc);
    mix(gs);
    mix(gus);
    mix(gi);
    mix(gu);
    mix(gl);
    mix(gul);
    mix(gauc[0]);
    mix(gauc[1]);
    mix(gauc[2]);
    mix(gauc[3]);
    mix(gauc[4]);
    mix(gauc[5]);
    mix(gauc[6]);
    mix(gauc[7]);
    mix(gai[0]);
    mix(gai[1]);
    mix(gai[2]);
    mix(gai[3]);
    mix(gal[0]);
    mix(gal[1]);
    mix(gal[2]);
    mix(gal[3]);
    mix(gaus[0]);
    mix(gaus[1]);
    mix(gz.a);
    mix(gz.b);
    mix(gz.c);
    mix(gz.d);
    mix(gz.e);
    mix(gz.p);
    mix(gz.q);
    mix(gz.s);
    mix(gz.t);
    mix(gz.x);
    mix(gz2.a);
    mix(gz2.b);
    mix(gz2.c);
    mix(gz2.d);
    mix(gz2.e);
    mix(gz2.p);
    mix(gz2.q);
    mix(gz2.s);
    mix(gz2.t);
    mix(gz2.x);
    hex(h, 8); putchar(10);
    return 0;
}
