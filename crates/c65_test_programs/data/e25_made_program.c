int putchar(int c);
unsigned long h;
void hex(unsigned long n, int d) { if (d > 1) hex(n >> 4, d - 1); putchar("0123456789abcdef"[n & 15]); }
void mix(unsigned long v) { h = (h << 5 | h >> 27) ^ v; }
struct S { int a; unsigned char b; long c; signed char d; unsigned long e; unsigned p : 3, q : 6; signed int s : 5; unsigned t : 16; signed x : 11; };
unsigned char guc = ((unsigned char)189);
signed char gsc = ((signed char)0);
short gs = ((short)-17047);
unsigned short gus = ((unsigned short)34736);
int gi = 100;
unsigned gu = 16321u;
long gl = (-425629125L);
unsigned long gul = 7UL;
unsigned char gauc[8] = { ((unsigned char)3), ((unsigned char)1), ((unsigned char)3), ((unsigned char)104), ((unsigned char)255), ((unsigned char)99), ((unsigned char)231), ((unsigned char)128) };
int gai[4] = { 8303, 32767, 999, 2 };
long gal[4] = { 1242556253L, 3L, (-1383707580L), 780260973L };
unsigned short gaus[2] = { ((unsigned short)45261), ((unsigned short)65535) };
struct S gz, gz2;
long __cdecl__ f0(int *p0, unsigned char *p1)
{
    {
        int v1 = !((gz.s % (gz.t | 1)));
        register short v2 = gsc;
        if (gz2.b) return (gz2.q = (gz.a = 7L));
        {
            static signed char st3 = ((signed char)-57);
            static int st4 = 1;
            (gai[(~(gz.s)) & 3] = 10585u);
            switch (gz2.d & 3) {
            case 2:
                if (((2707544329UL / (gz2.e | 1)) + (100L > gal[3]))) {
                    ++gz.t;
                } else {
                    (gaus[1] *= 1551884376UL);
                }
                break;
            default:
                if (((gz.d = gz2.d) < gz.p)) {
                    (gs = ((gul || 127) % ((gz2.b && st4) | 1)));
                } else {
                    (gl <<= (((gz2.t ? gz2.c : gz.a) >= (28365 < gz2.t)) & 31));
                }
            case 1:
                switch (-((gz.e >> (gz.q & 31))) & 3) {
                case 0:
                    (p0[2] = (long)((gz2.q &= p1[2])));
                    break;
                case 1:
                    (gz.q |= --st4);
                    break;
                case 2:
                    mix((((gal[0] ^ gul) * (gz2.e / (gz2.c | 1))) ^ ((guc = gz2.e) / ((gs ? gz.s : 4084955899UL) | 1))));
                    break;
                default:
                    (gauc[5] += ((st3 = gz.c) * (gal[2] != gz.s)));
                    break;
                case 3:
                    gz2.e--;
                    break;
                }
                break;
            }
        }
        (v2 &= (((-22047) / (gz.x | 1)) == (gz2.d += 255)));
    }
    return ((gaus[0] ? gal[0] : gs) * (3188315812UL && gauc[0]));
}
signed char f1(register unsigned long p0, unsigned p1)
{
    {
        short a5[8] = { ((short)-29171), ((short)14456), ((short)127), ((short)32767), ((short)-31655) };
        if (((gu ? gs : 29720) >= (gz2.t -= gsc))) return ((gu > gz2.x) << ((gz.q || 3418972203UL) & 15));
        if ((gz.q |= (gz.b << (gl & 15)))) {
            mix((((gz2.p = gz.a) >> 5) >= gz2.t));
        } else {
            mix((gz2.a / (((gai[0] ? gz.t : 10697) << 0) | 1)));
        }
    }
    return ((gaus[1] ? gi : gz2.s) || (gz2.p / (gz.p | 1)));
}
unsigned long f2(void)
{
    {
        static long st6 = 0L;
        unsigned a7[2] = { 999u };
        (gz.d ^= ((12746 != 807706639UL) % ((gu & gal[0]) | 1)));
        if ((~(gauc[0]) & (gz.c ^ gauc[4]))) return (int)((gz2.t * (-2113)));
        { signed char n8 = 1; while (--n8 >= 0 && gus) {
            switch ((gl = (gauc[0] << 0)) & 7) {
            default:
                gz.s++;
                break;
            case 4:
                if (((gz.q ^ 2393263237UL) - 28570)) continue;
            case 0:
                { long n9 = 1; do {
                    mix((gul = ((gz2.x * gl) | (gus = 256UL))));
                } while (--n9 > 0 && (gal[1] >> (2708268376UL & 31))); }
            }
        } }
    }
    return ((0 << 12) + gz.a);
}
unsigned long f3(signed char p0, unsigned char p1, register short p2)
{
    {
        unsigned char v10 = ((gus ? gz2.e : gsc) == (7 <= gz2.e));
        (gi = gz.s);
        {
            static unsigned short st11 = ((unsigned short)1);
            struct S z12 = gz2;
            unsigned short a13[8] = { ((unsigned short)1), ((unsigned short)58280), ((unsigned short)46875), ((unsigned short)16319), ((unsigned short)13940), ((unsigned short)999) };
            switch (gi & 3) {
            case 1:
                if (((4 & z12.b) > (z12.e <= gz.x))) {
                    gz = z12;
                }
            case 2:
                (z12.e = (z12.c ^= (128u * st11)));
            case 0:
                switch ((z12.t <<= ((gi && 100u) & 15)) & 3) {
                case 3:
                    gz = z12;
                default:
                    mix((gz2.b - ((gu = 127L) ^ 227613770L)));
                    break;
                case 2:
                    (a13[(((-62) ? a13[3] : gz2.c)) & 7] = ((gi & gus) && f1(gi, 28340)));
                }
            default:
                mix((-((gsc & 2L)) || ((gz.q != 7L) << ((gauc[4] > 8755) & 15))));
                break;
            case 3:
                { long n14 = 3; do {
                    mix((unsigned)((gz2.p -= (4 | (-15858)))));
                } while (--n14 > 0 && (1774918424L && gz2.p)); }
                break;
            }
            { int n15; for (n15 = 0; n15 < 1 && (-25526); n15++) {
                mix(((int)((gz2.b - gz.p)) | (gz2.c %= (!(3L) | 1))));
            } }
            { int n16; for (n16 = 0; n16 < 2 && (gauc[7] & gz2.x); n16++) {
                ++st11;
            } }
        }
    }
    return ((gz.e * 25468) & gz.e--);
}
int main(void)
{
    mix(f0(gai, gauc)); hex(h, 8); putchar(10);
    mix(f0(gai, gauc)); hex(h, 8); putchar(10);
    mix(f1(0UL, 40042u)); hex(h, 8); putchar(10);
    mix(f1(32767UL, 1704u)); hex(h, 8); putchar(10);
    mix(f2()); hex(h, 8); putchar(10);
    mix(f2()); hex(h, 8); putchar(10);
    mix(f3(((signed char)30), ((unsigned char)127), ((short)-25425))); hex(h, 8); putchar(10);
    mix(f3(((signed char)-119), ((unsigned char)28), ((short)-18403))); hex(h, 8); putchar(10);
    mix(guc);
    mix(gsc);
    mix(gs);
    mix(gus);
    mix(gi);
    mix(gu);
    mix(gl);
    mix(gul);
    mix(gauc[0]);
    mix(gauc[1]);
    mix(gauc[2]);
    mix(gauc[3]);
    mix(gauc[4]);
    mix(gauc[5]);
    mix(gauc[6]);
    mix(gauc[7]);
    mix(gai[0]);
    mix(gai[1]);
    mix(gai[2]);
    mix(gai[3]);
    mix(gal[0]);
    mix(gal[1]);
    mix(gal[2]);
    mix(gal[3]);
    mix(gaus[0]);
    mix(gaus[1]);
    mix(gz.a);
    mix(gz.b);
    mix(gz.c);
    mix(gz.d);
    mix(gz.e);
    mix(gz.p);
    mix(gz.q);
    mix(gz.s);
    mix(gz.t);
    mix(gz.x);
    mix(gz2.a);
    mix(gz2.b);
    mix(gz2.c);
    mix(gz2.d);
    mix(gz2.e);
    mix(gz2.p);
    mix(gz2.q);
    mix(gz2.s);
    mix(gz2.t);
    mix(gz2.x);
    hex(h, 8); putchar(10);
    return 0;
}
