int putchar(int c);
unsigned long h;
void hex(unsigned long n, int d) { if (d > 1) hex(n >> 4, d - 1); putchar("0123456789abcdef"[n & 15]); }
void mix(unsigned long v) { h = (h << 5 | h >> 27) ^ v; }
struct S { int a; unsigned char b; long c; signed char d; unsigned long e; unsigned p : 3, q : 6; signed int s : 5; unsigned t : 16; signed x : 11; };
unsigned char guc = ((unsigned char)242);
signed char gsc = ((signed char)23);
short gs = ((short)32767);
unsigned short gus = ((unsigned short)999);
int gi = 20194;
unsigned gu = 3u;
long gl = (-1798715056L);
unsigned long gul = 4293759541UL;
unsigned char gauc[8] = { ((unsigned char)10), ((unsigned char)220), ((unsigned char)243), ((unsigned char)255), ((unsigned char)4), ((unsigned char)222), ((unsigned char)100), ((unsigned char)232) };
int gai[4] = { (-1), 10779, 15474, 2 };
long gal[4] = { 2L, 1544862794L, (-1398099042L), (-20711757L) };
unsigned short gaus[2] = { ((unsigned short)52216), ((unsigned short)127) };
struct S gz, gz2;
unsigned __cdecl__ f0(unsigned long p0, register long p1)
{
    {
        unsigned long a1[4] = { 3571370479UL, 2841917993UL, 3864184602UL, 1506566321UL };
        unsigned long a2[4] = { 3499039666UL, 713263864UL };
        struct S z3 = { 26651, ((unsigned char)3), 7L };
        { signed char n4 = 1; while (--n4 >= 0 && (gz.a -= 3)) {
            switch ((short)((gus / (z3.x | 1))) & 3) {
            case 2:
                (gu = 2);
            default:
                (gz2.e <<= ((((-1084) * gs) ? ((-24631) ^ z3.d) : (10 | gul)) & 31));
            case 1:
                mix(((z3.e + (gz.s & z3.c)) << ((short)((gsc & gauc[6])) & 31)));
                break;
            }
        } }
        mix(gl);
        --gz2.s;
        switch (((p1 + gl) | (gul < gz.q)) & 7) {
        case 0:
            mix((gz2.e ? ((gi + 128L) == (1u ? 32767 : (-1320047243L))) : ((gz2.a ? gai[2] : 3090430049UL) || (gz2.x %= (gal[3] | 1)))));
            break;
        case 6:
            { long n5 = 3; do {
                switch (((z3.x % (z3.s | 1)) ? (4161216846UL % (gl | 1)) : (256 % (37580u | 1))) & 7) {
                case 7:
                    mix(((((-9695) == a1[1]) >> 12) << (((gz2.s -= (-25793)) ^ (a2[1] - 2103690601UL)) & 15)));
                case 5:
                    --gz2.p;
                default:
                    (gz2.d = (gauc[(gz2.s) & 7] *= guc));
                    break;
                case 0:
                    (gz2.a = (z3.q = --gz.x));
                }
            } while (--n5 > 0 && (9601 - gi)); }
            break;
        default:
            switch ((z3.a = (z3.q && z3.e)) & 3) {
            case 1:
                { long n9 = 2; do {
                    (gz2.a = ((unsigned)(255) || (gz.s * a1[2])));
                } while (--n9 > 0 && ++gz.a); }
                break;
            case 3:
                switch (gus & 7) {
                case 5:
                    (gsc = ((gz2.q << (gz2.x & 15)) * (gz.d = 256)));
                case 6:
                    ++gz2.d;
                    break;
                case 3:
                    mix(((((-11966) << (a1[0] & 15)) >= gz2.d) >> 8));
                    break;
                default:
                    (gz.b = ((gauc[6] - gs) || (7UL || gl)));
                case 0:
                    gz2.x--;
                    break;
                }
                break;
            case 2:
                switch ((z3.e = (255u * 3702934004UL)) & 7) {
                case 6:
                    mix(((-(gz2.b) + -(0UL)) & ((gauc[2] | gz2.s) % ((gz2.q * z3.c) | 1))));
                case 3:
                    (gal[((gai[0] = (-28196))) & 3] ^= ((z3.d + gz2.p) | --a2[3]));
                default:
                    a2[1]--;
                }
                break;
            default:
                (gz.e += ((11706u & gz.t) ^ (gz.d >= gl)));
            case 0:
                { long n10 = 1; do {
                    (z3.x &= -((gz2.x && gaus[1])));
                } while (--n10 > 0 && (127UL || gz2.c)); }
                break;
            }
            break;
        case 5:
            if (gz.s++) {
                switch (((gz2.d || gu) & (z3.e * 100)) & 7) {
                case 0:
                    (gz2.b = ((gauc[7] <= gz.b) & (gz2.t - 2u)));
                case 7:
                    (z3.e = (int)(--p0));
                    break;
                case 6:
                    (z3.e %= (((1u << (0L & 15)) && (z3.p - a1[2])) | 1));
                    break;
                }
            } else {
                (gai[((gz.x > 1L)) & 3] = ((gaus[0] << 8) + (978201676UL < gz2.d)));
            }
        case 3:
            if (!(!(gz2.x))) {
                {
                    long v6 = (-(z3.s) < (255 | gaus[0]));
                    signed char v7 = (gz2.s = (127 ^ gus));
                    unsigned char a8[8] = { ((unsigned char)224), ((unsigned char)7), ((unsigned char)2), ((unsigned char)63), ((unsigned char)3), ((unsigned char)157) };
                    mix(((gai[1] = (gz2.d << 9)) << ((((-22399) <= 867641268UL) <= (z3.e << 16)) & 15)));
                    (gus /= (-((gauc[2] -= gz2.s)) | 1));
                }
            }
        }
    }
    return (guc + (7UL && (-1175952803L)));
}
unsigned long f1(unsigned char *p0, register unsigned short p1)
{
    {
        struct S z11 = gz;
        static short st12 = ((short)-25219);
        switch ((17889 / ((guc = 30972) | 1)) & 3) {
        case 0:
            if (((-378639322L) != ((-28817) <= 800306982L))) break;
            break;
        case 1:
            if (((gz2.a / (st12 | 1)) & (gai[1] = 1))) {
                { long n13 = 3; do {
                    (z11.a *= ((7528 <= 23085) >= (z11.c ? z11.a : (-14489))));
                } while (--n13 > 0 && (gz.a | 22312)); }
            }
        default:
            (gsc %= (((gz2.p * gs) && (11531 / (guc | 1))) | 1));
            break;
        case 3:
            {
                unsigned short a14[4] = { ((unsigned short)21899) };
                {
                    short a15[8] = { ((short)2815), ((short)10) };
                    register unsigned short v16 = (a15[2] && f0(gz.t, 100));
                    signed char v17 = (!(gz2.a) - ((-4436) / (gal[3] | 1)));
                    (gz2.s = (((-654978869L) + 53072u) ? (32767L % (gz.q | 1)) : (10UL | gz.t)));
                    (gz.e >>= (((gl / (gz.b | 1)) ^ f0(gal[0], 127L)) & 31));
                }
                mix((z11.b = (z11.a /= ((gz.a ? gz.c : gz.e) | 1))));
                { signed char n18 = 3; while (--n18 >= 0 && (a14[0] || 7L)) {
                    (z11.s = (f0(204236786UL, guc) > (gz2.t | 2u)));
                } }
            }
        case 2:
            (gi >>= (((z11.t || z11.p) / (((-10009) + p1) | 1)) & 15));
            break;
        }
        mix(((f0(st12, 0) * z11.c) - ((gz2.t % (gauc[5] | 1)) >> 13)));
    }
    return (f0(gz.c, gauc[1]) != (7L || gauc[6]));
}
signed char f2(long p0, int *p1)
{
    {
        static unsigned char st19 = ((unsigned char)212);
        signed char v20 = ((unsigned short)(1) ^ (gsc >> (gaus[0] & 15)));
        (p1[2] = ((gsc && gl) % (gz2.s-- | 1)));
        if ((gz.x /= ((32767 - 1172861348L) | 1))) return (-(100L) & gus++);
    }
    return (gz2.e-- ? (gz2.d = gz.s) : (gz.d *= gz.d));
}
unsigned char __cdecl__ f3(register short p0, unsigned char p1)
{
    {
        unsigned char a21[2] = { ((unsigned char)233) };
        static short st22 = ((short)7);
        long a23[8] = { 4L, 255L, 4L };
        if (((unsigned long)(gsc) ^ p1)) return f0(gl, p1);
        if (((p1 = (-25669)) * (gz.t >>= (gauc[1] & 15)))) return ((gus / (255 | 1)) & (gz2.e && 16122));
    }
    return (gz.e = (gz.b ? 84 : gl));
}
int main(void)
{
    mix(f0(1807925695UL, (-548961650L))); hex(h, 8); putchar(10);
    mix(f0(1793001556UL, (-184160180L))); hex(h, 8); putchar(10);
    mix(f1(gauc, ((unsigned short)0))); hex(h, 8); putchar(10);
    mix(f1(gauc, ((unsigned short)22884))); hex(h, 8); putchar(10);
    mix(f2(32767L, gai)); hex(h, 8); putchar(10);
    mix(f2((-1928931091L), gai)); hex(h, 8); putchar(10);
    mix(f3(((short)-1), ((unsigned char)1))); hex(h, 8); putchar(10);
    mix(f3(((short)256), ((unsigned char)255))); hex(h, 8); putchar(10);
    mix(guc);
    mix(gsc);
    mix(gs);
    mix(gus);
    mix(gi);
    mix(gu);
    mix(gl);
    mix(gul);
    mix(gauc[0]);
    mix(gauc[1]);
    mix(gauc[2]);
    mix(gauc[3]);
    mix(gauc[4]);
    mix(gauc[5]);
    mix(gauc[6]);
    mix(gauc[7]);
    mix(gai[0]);
    mix(gai[1]);
    mix(gai[2]);
    mix(gai[3]);
    mix(gal[0]);
    mix(gal[1]);
    mix(gal[2]);
    mix(gal[3]);
    mix(gaus[0]);
    mix(gaus[1]);
    mix(gz.a);
    mix(gz.b);
    mix(gz.c);
    mix(gz.d);
    mix(gz.e);
    mix(gz.p);
    mix(gz.q);
    mix(gz.s);
    mix(gz.t);
    mix(gz.x);
    mix(gz2.a);
    mix(gz2.b);
    mix(gz2.c);
    mix(gz2.d);
    mix(gz2.e);
    mix(gz2.p);
    mix(gz2.q);
    mix(gz2.s);
    mix(gz2.t);
    mix(gz2.x);
    hex(h, 8); putchar(10);
    return 0;
}
