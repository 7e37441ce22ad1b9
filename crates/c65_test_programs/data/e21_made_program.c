int putchar(int c);
unsigned long h;
void hex(unsigned long n, int d) { if (d > 1) hex(n >> 4, d - 1); putchar("0123456789abcdef"[n & 15]); }
void mix(unsigned long v) { h = (h << 5 | h >> 27) ^ v; }
struct S { int a; unsigned char b; long c; signed char d; unsigned long e; unsigned p : 3, q : 6; signed int s : 5; unsigned t : 16; signed x : 11; };
unsigned char guc = ((unsigned char)255);
signed char gsc = ((signed char)16);
short gs = ((short)100);
unsigned short gus = ((unsigned short)30949);
int gi = (-13847);
unsigned gu = 100u;
long gl = 32767L;
unsigned long gul = 128UL;
unsigned char gauc[8] = { ((unsigned char)0), ((unsigned char)68), ((unsigned char)58), ((unsigned char)26), ((unsigned char)7), ((unsigned char)255), ((unsigned char)240), ((unsigned char)175) };
int gai[4] = { 10, (-30958), 100, (-29304) };
long gal[4] = { 3L, (-1026721638L), 4L, 1787479226L };
unsigned short gaus[2] = { ((unsigned short)36467), ((unsigned short)6553) };
struct S gz, gz2;
short __cdecl__ f0(int *p0, long p1)
{
    {
        unsigned long v1 = ((gz2.e != gz2.b) == (gz2.b ? 2UL : gz2.d));
        unsigned char v2 = ((gz.a / (gz.c | 1)) | (gz.p >> (guc & 15)));
        { long n3 = 1; do {
            {
                unsigned v4 = ((v2 / (gu | 1)) & (gz.e = gi));
                struct S z5 = gz2;
                { signed char n6 = 2; while (--n6 >= 0 && (999L < 256)) {
                    mix((gsc = ((gz.c >= z5.d) * (gsc > v4))));
                } }
                if (((gus = gz.s) != (gz.e * 162850258UL))) continue;
                (gz2.s = (z5.t += (gz2.p << (z5.p & 15))));
            }
        } while (--n3 > 0 && (gz2.b + gz.a)); }
        if (((gauc[5] / (gz.p | 1)) | (v2 = v1))) {
            if ((999UL + (gz.x <= (-25954)))) {
                switch (((gz2.c + gai[1]) == (1UL || gz2.b)) & 3) {
                case 3:
                    mix(((gz.a = (gz.d < 10)) - ~((2596 ? 20987u : gz.t))));
                    break;
                case 1:
                    mix((((32767 / (128L | 1)) || (gz2.c += 37945u)) <= ((26330 && 3131758161UL) & gz.q)));
                case 0:
                    (gai[(((-11695) * gz.s)) & 3] = (gz.q = !(40863u)));
                case 2:
                    (gz.b = ((v2 ^ 1946950245L) / (gal[2] | 1)));
                    break;
                }
            }
        }
        (gauc[2] = ((65535UL ^ gz2.q) >> ((gz2.t & gz2.e) & 31)));
        (gz.p /= (1583512027UL | 1));
    }
    return (unsigned short)((gz2.b ? (-617284979L) : 2453425757UL));
}
short f1(unsigned short p0)
{
    {
        unsigned a7[4] = { 65163u, 1u };
        static signed char st8 = ((signed char)-1);
        {
            struct S z9 = gz2;
            { int n10; for (n10 = 0; n10 < 2 && (z9.s || 127); n10++) {
                mix((((gz.e % (gz2.q | 1)) % (gal[2]-- | 1)) / (((gsc = st8) >> 4) | 1)));
            } }
            mix((((st8 ? z9.t : gul) < (gz.p << (p0 & 15))) != (z9.d |= (z9.x ? 847659576UL : guc))));
        }
        { signed char n11 = 3; while (--n11 >= 0 && (gz.d - gz.q)) {
            { long n12 = 2; do {
                mix((st8 = ((gz2.p - 1293) * (256 ? 3u : 1u))));
            } while (--n12 > 0 && (gaus[0] || guc)); }
        } }
    }
    return --gz2.b;
}
int f2(register unsigned short p0, register short p1)
{
    {
        struct S z13 = gz2;
        short a14[8] = { ((short)-4396), ((short)-25805), ((short)30106), ((short)9084), ((short)-6956), ((short)23664), ((short)10), ((short)256) };
        switch (((gaus[0] = gz.b) | (z13.p == z13.t)) & 3) {
        case 1:
            mix(f0(gai, -(gz.e)));
            break;
        case 0:
            { int n15; for (n15 = 0; n15 < 1 && gz2.t; n15++) {
                mix((gz2.d = (10UL && (gs % (p1 | 1)))));
            } }
        case 2:
            mix(((++z13.t % ((10UL && z13.b) | 1)) + f1(z13.a)));
            break;
        case 3:
            if (((gz.e ? (-1) : 226822619L) || p0++)) return gz2.q;
        }
        switch (((3811 & gz.t) != (z13.x | (-2135719919L))) & 7) {
        case 5:
            {
                short v16 = ((a14[0] %= (gz.a | 1)) == (gauc[1] < 4UL));
                register unsigned v17 = ((z13.c & 65535u) < (long)(gu));
                static short st18 = ((short)100);
                if ((f1(gz2.s) & (36882u << 3))) break;
                mix((((p1 - gi) ? (gz2.p * 31894u) : (gz.d / (z13.x | 1))) - (gz.a -= f1(guc))));
                switch ((p0 >= -(gz2.s)) & 3) {
                case 2:
                    z13 = gz2;
                    break;
                default:
                    mix((unsigned char)((guc = (gz2.b ^= gz2.c))));
                    break;
                case 3:
                    mix((!((gauc[7] || z13.b)) || f1(gz2.p)));
                }
                mix((((10UL | gz2.p) << 31) * (gz2.d -= 0)));
            }
            break;
        case 4:
            (gl = --gu);
            break;
        case 3:
            if (gl) {
                switch ((gul %= ((gus -= gul) | 1)) & 7) {
                case 7:
                    mix(((z13.a = (z13.a >>= (999L & 15))) % ((gz.s || ++gz.c) | 1)));
                    break;
                case 3:
                    mix(--gus);
                    break;
                case 0:
                    gz.p++;
                    break;
                case 4:
                    (z13.d <<= (((1L && 14747) == a14[0]) & 15));
                    break;
                case 6:
                    mix(~(((gz.c = 256u) + (999 & 1UL))));
                    break;
                }
            } else {
                (gz2.b = (21091 << ((z13.s *= gz.p) & 15)));
            }
            break;
        default:
            { signed char n19 = 3; while (--n19 >= 0 && (gus % (gul | 1))) {
                mix(~(f1(gz2.d)));
            } }
        }
    }
    return (signed char)(!(p0));
}
int f3(short p0, short p1, register unsigned p2)
{
    {
        long v20 = ((guc && gauc[6]) << ((gz2.p + 128u) & 15));
        register unsigned long v21 = (gauc[5]-- && (gz.d >> (gl & 15)));
        if (((27193 ? gz.q : gz.x) & (p1 ? 58417u : p2))) return ((gz.b + gaus[1]) <= (gz.x & gz2.s));
        switch (((gz.p << (999L & 15)) && 10) & 3) {
        case 1:
            mix((unsigned short)(((gaus[1] | gi) << (f0(gai, p0) & 15))));
            break;
        default:
            (gai[0] = ((gz2.c - (-863)) << 11));
            break;
        case 2:
            mix(((signed char)((gz2.t - 0UL)) - gz2.s));
            break;
        case 0:
            if (f2(p2, p0)) {
                if (((gz2.x &= gz.e) ? (gu &= gz.e) : (guc >> 4))) break;
            }
            break;
        case 3:
            --gz.a;
            break;
        }
        switch (((2642199173UL ^ gz2.q) < ((-24302) & gul)) & 3) {
        case 1:
            {
                long v22 = ((gz.a ? v21 : gz2.t) != (v20 + gz2.e));
                static long st23 = 100L;
                short v24 = ((gl >> 2) + (gz.a >>= (p0 & 15)));
                if (((gaus[0] + gz.q) && -(v21))) {
                    (p0 %= ((gz2.t += (gz2.t = 39067u)) | 1));
                }
                if (gz2.b--) break;
                { int n25; for (n25 = 0; n25 < 1 && (2258u & v22); n25++) {
                    (gu ^= (p2 = (1UL / (p0 | 1))));
                } }
                if (((gz.d - gz.e) >> (((-3120) - 127) & 31))) {
                    mix((gz.b ^ ((2443u * 2u) & (128 | 3099011753UL))));
                } else {
                    mix(((guc = (11358 + 100UL)) & (f0(gai, gz.a) <= (gz2.b | (-22338)))));
                }
            }
        default:
            (gz.s = ((127 + gai[1]) << 9));
        case 2:
            { long n26 = 2; do {
                { signed char n27 = 3; while (--n27 >= 0 && (unsigned long)(gal[2])) {
                    (v21 |= (gz2.s % (((-1304496604L) >> (1L & 31)) | 1)));
                } }
            } while (--n26 > 0 && (4088738388UL | v21)); }
            break;
        case 3:
            switch (gus & 7) {
            case 0:
                { int n28; for (n28 = 0; n28 < 1 && (39808u - (-19625)); n28++) {
                    (p0 &= (++gz.a >> 7));
                } }
                break;
            default:
                mix((((gs /= (32767u | 1)) ? (gz2.c |= 32069) : (gul = gz2.p)) / (((gz.t >> 15) <= (127UL >> (653853959L & 31))) | 1)));
                break;
            case 2:
                if (((guc %= (gal[1] | 1)) % (v20 | 1))) {
                    (gz2.x = ~((41858u || p0)));
                } else {
                    --gz.e;
                }
                break;
            case 6:
                { int n29; for (n29 = 0; n29 < 1 && (256 - gi); n29++) {
                    mix(++guc);
                } }
                break;
            case 5:
                { int n30; for (n30 = 0; n30 < 1 && (gz.d ^= 0u); n30++) {
                    (gu /= ((100 - (gus % (gz2.q | 1))) | 1));
                } }
                break;
            }
            break;
        case 0:
            { signed char n31 = 1; while (--n31 >= 0 && (7L ^ gl)) {
                if (((gz.a + gz2.b) * (p0 &= 10))) break;
            } }
            break;
        }
    }
    return (p2 ^= (gz.a == gi));
}
int main(void)
{
    mix(f0(gai, 2L)); hex(h, 8); putchar(10);
    mix(f0(gai, 91051068L)); hex(h, 8); putchar(10);
    mix(f1(((unsigned short)7))); hex(h, 8); putchar(10);
    mix(f1(((unsigned short)999))); hex(h, 8); putchar(10);
    mix(f2(((unsigned short)128), ((short)256))); hex(h, 8); putchar(10);
    mix(f2(((unsigned short)5706), ((short)255))); hex(h, 8); putchar(10);
    mix(f3(((short)7), ((short)256), 43949u)); hex(h, 8); putchar(10);
    mix(f3(((short)-4621), ((short)7), 36182u)); hex(h, 8); putchar(10);
    mix(guc);
    mix(gsc);
    mix(gs);
    mix(gus);
    mix(gi);
    mix(gu);
    mix(gl);
    mix(gul);
    mix(gauc[0]);
    mix(gauc[1]);
    mix(gauc[2]);
    mix(gauc[3]);
    mix(gauc[4]);
    mix(gauc[5]);
    mix(gauc[6]);
    mix(gauc[7]);
    mix(gai[0]);
    mix(gai[1]);
    mix(gai[2]);
    mix(gai[3]);
    mix(gal[0]);
    mix(gal[1]);
    mix(gal[2]);
    mix(gal[3]);
    mix(gaus[0]);
    mix(gaus[1]);
    mix(gz.a);
    mix(gz.b);
    mix(gz.c);
    mix(gz.d);
    mix(gz.e);
    mix(gz.p);
    mix(gz.q);
    mix(gz.s);
    mix(gz.t);
    mix(gz.x);
    mix(gz2.a);
    mix(gz2.b);
    mix(gz2.c);
    mix(gz2.d);
    mix(gz2.e);
    mix(gz2.p);
    mix(gz2.q);
    mix(gz2.s);
    mix(gz2.t);
    mix(gz2.x);
    hex(h, 8); putchar(10);
    return 0;
}
