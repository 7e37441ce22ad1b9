int putchar(int c);
unsigned long h;
void hex(unsigned long n, int d) { if (d > 1) hex(n >> 4, d - 1); putchar("0123456789abcdef"[n & 15]); }
void mix(unsigned long v) { h = (h << 5 | h >> 27) ^ v; }
struct S { int a; unsigned char b; long c; signed char d; unsigned long e; unsigned p : 3, q : 6; signed int s : 5; unsigned t : 16; signed x : 11; };
unsigned char guc = ((unsigned char)127);
signed char gsc = ((signed char)-1);
short gs = ((short)-24529);
unsigned short gus = ((unsigned short)39688);
int gi = 32767;
unsigned gu = 127u;
long gl = 256L;
unsigned long gul = 32767UL;
unsigned char gauc[8] = { ((unsigned char)101), ((unsigned char)38), ((unsigned char)2), ((unsigned char)133), ((unsigned char)0), ((unsigned char)16), ((unsigned char)128), ((unsigned char)231) };
int gai[4] = { 32767, 128, (-7943), 999 };
long gal[4] = { 1696354899L, (-1817159164L), 65535L, 7L };
unsigned short gaus[2] = { ((unsigned short)2), ((unsigned short)4) };
struct S gz, gz2;
long __cdecl__ f0(register long p0, long p1)
{
    {
        unsigned char a1[4] = { ((unsigned char)83), ((unsigned char)231) };
        signed char a2[8] = { ((signed char)-4), ((signed char)72), ((signed char)100), ((signed char)-3) };
        (gz2.e += (signed char)(gs));
        if (~((gz.s = 3UL))) {
            {
                short a3[8] = { ((short)22270) };
                short v4 = ((p0 << 15) >> ((guc % (gz.t | 1)) & 31));
                { int n5; for (n5 = 0; n5 < 3 && gz2.s; n5++) {
                    (gz.p += (gsc %= ((7 & gz.e) | 1)));
                } }
                mix((((gl | 44232u) % ((29563 > 3) | 1)) * a3[(22628) & 7]++));
                if (((32767 >> (gz2.p & 15)) || (gz.c = p1))) return -((gz.q = (-20074)));
            }
        }
        gz2.p++;
    }
    return ((35453u << 1) + (52825u - 128));
}
unsigned char f1(long *p0, long p1)
{
    {
        unsigned char v6 = (unsigned char)((gu + gz2.x));
        signed char v7 = ((gauc[0] & gz2.c) || -(v6));
        if (((unsigned)(gz2.e) <= (gi % (gz.c | 1)))) return (gz.t = (gz.e = p1));
        switch ((signed char)((gz.d ? gs : gl)) & 3) {
        case 0:
            if (--gz.q) break;
        case 1:
            { int n8; for (n8 = 0; n8 < 3 && (unsigned char)(gaus[0]); n8++) {
                mix((~(f0(gz2.e, gal[3])) || (unsigned long)(((-358138503L) << (gaus[0] & 31)))));
            } }
            break;
        default:
            { signed char n10 = 2; while (--n10 >= 0 && (gz.e ? 35138u : gz2.x)) {
                { long n11 = 1; do {
                    --gz2.e;
                } while (--n11 > 0 && (gai[1] ? gz2.s : 7UL)); }
            } }
            break;
        case 3:
            (gz.t <<= ((~(gz.s) | gz2.c) & 15));
            break;
        case 2:
            { signed char n9 = 1; while (--n9 >= 0 && (gz2.e ^= gz.b)) {
                if ((v7 = (gs | gz.c))) {
                    (gi %= (((gz.e && 10) % (gul | 1)) | 1));
                } else {
                    mix(!(((gz2.x > v6) & (gi -= p1))));
                }
            } }
        }
        mix((long)((1061699986L | (gz2.q <= gi))));
        if (((gul ? (-21618) : gauc[2]) % (--v6 | 1))) {
            (gsc ^= f0(100UL, gz.s));
        }
    }
    return ((p1 / (gz.a | 1)) / ((gz2.q < 58461u) | 1));
}
short __cdecl__ f2(unsigned char p0, unsigned short p1, register unsigned char p2)
{
    {
        unsigned v12 = ((unsigned)(gz.b) + (gz2.p /= (gl | 1)));
        unsigned short v13 = ((100L >= gz2.d) >> 14);
        --gz2.q;
        mix((((gauc[1] << (gaus[0] & 15)) + (gus >> 1)) ^ ((65535UL << 3) / ((gz.s ^ v12) | 1))));
        (gz2.a = gu);
        { int n14; for (n14 = 0; n14 < 1 && 31578; n14++) {
            (gz.x = (f0(gz2.d, 10u) >= (gz2.d >> 12)));
        } }
    }
    return -((gz2.t << 5));
}
unsigned long f3(void)
{
    {
        register unsigned char v15 = ((gus && gz.x) - (gl / (1u | 1)));
        mix(((~(gz.t) / ((gu > (-9249)) | 1)) && (gz.c % (((-551043231L) ? gz2.d : gz2.q) | 1))));
        switch (f1(gal, 4UL) & 7) {
        default:
            { signed char n18 = 1; while (--n18 >= 0 && (gz2.t ? gz.q : gus)) {
                (gal[((guc ^ 255)) & 3] = (gai[(gz.b) & 3] = (4 << 11)));
            } }
        case 5:
            if (gz2.b) {
                if (((gus = gu) && (gz2.s / (gz2.e | 1)))) {
                    mix((-((gaus[0] = 2745563207UL)) >> 6));
                }
            } else {
                if ((int)((gz.b >= 64202u))) {
                    (gal[((100u == gz2.a)) & 3] %= ((guc = (999 + gz2.a)) | 1));
                }
            }
        case 1:
            {
                unsigned short v16 = gz.x;
                { signed char n17 = 1; while (--n17 >= 0 && (gz.e ^ 255)) {
                    mix(-(gz2.e--));
                } }
                mix(gz2.s);
                if (--v15) {
                    ++gl;
                }
                if (((gz2.s ^ gz.p) & gul)) {
                    mix(++gl);
                } else {
                    (gz2.q = ((20800 << (gs & 15)) | (gz.a - v16)));
                }
            }
            break;
        }
    }
    return (guc *= (gz2.x & 256u));
}
int main(void)
{
    mix(f0((-626800830L), (-1851692211L))); hex(h, 8); putchar(10);
    mix(f0(127L, 1899609270L)); hex(h, 8); putchar(10);
    mix(f1(gal, (-717361260L))); hex(h, 8); putchar(10);
    mix(f1(gal, 128L)); hex(h, 8); putchar(10);
    mix(f2(((unsigned char)0), ((unsigned short)11760), ((unsigned char)255))); hex(h, 8); putchar(10);
    mix(f2(((unsigned char)42), ((unsigned short)32767), ((unsigned char)0))); hex(h, 8); putchar(10);
    mix(f3()); hex(h, 8); putchar(10);
    mix(f3()); hex(h, 8); putchar(10);
    mix(guc);
    mix(gsc);
    mix(gs);
    mix(gus);
    mix(gi);
    mix(gu);
    mix(gl);
    mix(gul);
    mix(gauc[0]);
    mix(gauc[1]);
    mix(gauc[2]);
    mix(gauc[3]);
    mix(gauc[4]);
    mix(gauc[5]);
    mix(gauc[6]);
    mix(gauc[7]);
    mix(gai[0]);
    mix(gai[1]);
    mix(gai[2]);
    mix(gai[3]);
    mix(gal[0]);
    mix(gal[1]);
    mix(gal[2]);
    mix(gal[3]);
    mix(gaus[0]);
    mix(gaus[1]);
    mix(gz.a);
    mix(gz.b);
    mix(gz.c);
    mix(gz.d);
    mix(gz.e);
    mix(gz.p);
    mix(gz.q);
    mix(gz.s);
    mix(gz.t);
    mix(gz.x);
    mix(gz2.a);
    mix(gz2.b);
    mix(gz2.c);
    mix(gz2.d);
    mix(gz2.e);
    mix(gz2.p);
    mix(gz2.q);
    mix(gz2.s);
    mix(gz2.t);
    mix(gz2.x);
    hex(h, 8); putchar(10);
    return 0;
}
