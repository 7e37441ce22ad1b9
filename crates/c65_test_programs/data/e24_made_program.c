int putchar(int c);
unsigned long h;
void hex(unsigned long n, int d) { if (d > 1) hex(n >> 4, d - 1); putchar("0123456789abcdef"[n & 15]); }
void mix(unsigned long v) { h = (h << 5 | h >> 27) ^ v; }
struct S { int a; unsigned char b; long c; signed char d; unsigned long e; unsigned p : 3, q : 6; signed int s : 5; unsigned t : 16; signed x : 11; };
unsigned char guc = ((unsigned char)1);
signed char gsc = ((signed char)122);
short gs = ((short)1);
unsigned short gus = ((unsigned short)127);
int gi = (-13078);
unsigned gu = 3856u;
long gl = 127L;
unsigned long gul = 999UL;
unsigned char gauc[8] = { ((unsigned char)1), ((unsigned char)255), ((unsigned char)255), ((unsigned char)204), ((unsigned char)2), ((unsigned char)255), ((unsigned char)245), ((unsigned char)225) };
int gai[4] = { 32767, (-21516), 3, 100 };
long gal[4] = { 65535L, (-248218100L), 1289545638L, 4L };
unsigned short gaus[2] = { ((unsigned short)57823), ((unsigned short)999) };
struct S gz, gz2;
unsigned short __cdecl__ f0(register int p0, register unsigned short p1, unsigned char p2)
{
    {
        int v1 = ((28911 ? 128u : 7UL) || (1019699006UL / (0 | 1)));
        switch ((gz.t = (gz2.e >>= (gi & 31))) & 3) {
        case 3:
            if (((gz2.b <= gl) + (2 / (gai[0] | 1)))) {
                { int n2; for (n2 = 0; n2 < 3 && (gz2.e % (gz.a | 1)); n2++) {
                    mix((((3u < gz2.e) || (gz.t + gz2.d)) | ((gal[2] / ((-1535476898L) | 1)) && (gz.p << 12))));
                } }
            }
            break;
        case 1:
            {
                unsigned char a3[4] = { ((unsigned char)68), ((unsigned char)15) };
                struct S z4 = gz;
                struct S z5 = gz2;
                { long n6 = 2; do {
                    (gu ^= (gz.s = (gz2.d = 1571453116UL)));
                } while (--n6 > 0 && (p1 - gz.s)); }
                { signed char n7 = 2; while (--n7 >= 0 && (signed char)(gz.a)) {
                    --gz2.t;
                } }
                if (((guc + gul) ^ (p1 != 4))) return (unsigned char)((gz2.s || a3[2]));
            }
        case 0:
            { long n8 = 2; do {
                { int n9; for (n9 = 0; n9 < 3 && gz.a++; n9++) {
                    mix((((gl < 2839006029UL) + (gul = gz.c)) & (gz.s |= (gz.s ^ gz.t))));
                } }
            } while (--n8 > 0 && (gz2.b >> (2L & 15))); }
            break;
        case 2:
            { signed char n10 = 2; while (--n10 >= 0 && (gz.t = guc)) {
                (gz2.s >>= (((gz2.a - gz.s) >> ((gi != 2) & 15)) & 15));
            } }
        default:
            switch ((gz.e = (unsigned short)(4u)) & 7) {
            case 2:
                mix((guc ? !((gi % (gal[2] | 1))) : ((255 | 1) <= (gz.c = 32767UL))));
                break;
            case 5:
                switch (((gz.a * 1532386498UL) ? (gs || gz.b) : (gz.s ^= gz.x)) & 3) {
                case 2:
                    --gz.t;
                    break;
                case 0:
                    (p2 /= (gz.x | 1));
                }
            default:
                if (1197u) break;
            }
        }
        {
            register short v11 = ((gz2.d | 1L) & ++gz.s);
            mix(((gz2.e = (44282u - gauc[5])) <= gal[0]));
            switch (((guc < gz.b) / ((128u - gai[0]) | 1)) & 3) {
            case 1:
                (gz.x >>= ((gal[((-20702)) & 3] += (25709 ^ p2)) & 15));
                break;
            case 2:
                mix(((-(gz2.a) >> 3) + ((256 < p2) & (gz2.d % (1505982333L | 1)))));
                break;
            case 0:
                if (((gz2.t + 32767UL) | (gsc && gz.c))) {
                    mix(256u);
                } else {
                    mix(((gz2.a = (845780449UL == gul)) ? gz.a : ((gu & gus) * ((-1) && gz.b))));
                }
            }
            { int n12; for (n12 = 0; n12 < 1 && (3628350564UL << 12); n12++) {
                if (gs) {
                    (gz.a /= ((signed char)((p1 + gz2.p)) | 1));
                } else {
                    mix((((p1 = 128u) | (guc && 27847u)) + -((gz2.q > (-1803212424L)))));
                }
            } }
        }
        { long n13 = 3; do {
            (gz.q = ((gz.x /= (20324 | 1)) - (-20735)));
        } while (--n13 > 0 && (gal[2] ^ 46255u)); }
    }
    return ((1856796821L || 0) / (2 | 1));
}
unsigned char f1(register unsigned p0)
{
    {
        unsigned v14 = (unsigned short)(++gz2.p);
        register unsigned short v15 = ((255L != (-1167026662L)) - (gz2.c -= gz2.p));
        unsigned short v16 = ((gz.d + gz2.t) || (v15 >= gul));
        if (((4187525185UL * gauc[7]) >> ((gz2.p << 5) & 31))) return ((gauc[0] ? 10145 : 37640u) < (gi = 999));
        { long n17 = 3; do {
            (gauc[5] -= ((gz2.c + 256) + (gz2.q - gz2.p)));
        } while (--n17 > 0 && (gz.a / (21427 | 1))); }
    }
    return ((gz2.t ^ gz2.b) << ((gz.e = 1426305324L) & 15));
}
signed char __cdecl__ f2(unsigned short p0)
{
    {
        static short st18 = ((short)-25357);
        static signed char st19 = ((signed char)18);
        static unsigned char st20 = ((unsigned char)100);
        (gz.p = (signed char)(~(gz.p)));
        mix((((unsigned long)(gal[1]) ? (127UL / (7UL | 1)) : (gz.t != gi)) ^ (((-346513910L) ? gz2.x : gz2.s) <= st19)));
        mix(gaus[1]);
        if (2) {
            (gz2.s = ((unsigned char)(st20) != gs++));
        }
    }
    return gz2.d;
}
unsigned f3(register unsigned p0)
{
    {
        short v21 = ((gz2.q ? gz2.b : gl) >> ((255UL * gz.a) & 31));
        register int v22 = f0((-735259516L), gz2.q, gi);
        unsigned long v23 = ((32767UL & 1) & gz.p);
        mix((f2(p0) >= (gz.p -= (v21 != gz.q))));
        {
            long a24[4] = { 1437070096L, 999L, 1604454153L, (-659707468L) };
            unsigned short v25 = (f1(gz.q) << (~((-899918120L)) & 15));
            static int st26 = 3;
            if (-((2u && 7UL))) {
                mix((((32767u ? v22 : gz2.s) >= (a24[1] /= (gz2.q | 1))) << 13));
            } else {
                mix((((gl = gz.s) || (gz.b % (gi | 1))) & ((gi * 11177u) ? gz.t : (gul > gz.q))));
            }
            { long n27 = 3; do {
                if (((unsigned long)(gi) && (gz2.x >= (-21347)))) {
                    mix(f2((10L ? gl : gz2.e)));
                } else {
                    (gz2.q = ((gz2.t ? gz2.d : gz.c) ? -(gal[1]) : 1u));
                }
            } while (--n27 > 0 && (gz.e == v21)); }
        }
        switch (gu-- & 3) {
        case 0:
            { signed char n28 = 3; while (--n28 >= 0 && (gz.p & 127L)) {
                (gz2.p = (--gsc % ((gz2.d & gsc) | 1)));
            } }
        case 1:
            (gai[0] = --gul);
        default:
            if ((-(gz2.c) <= 4UL)) break;
            break;
        case 2:
            if ((unsigned short)((32767 || 10L))) break;
        case 3:
            mix(((int)((p0 - gsc)) % ((f0(gz2.d, gz.q, gz2.p) >= (gsc | gauc[0])) | 1)));
        }
        mix(((gz.b >= (gz2.b != gal[3])) + gz.q));
    }
    return (~(gz2.t) * (int)(2425490390UL));
}
int main(void)
{
    mix(f0(999, ((unsigned short)256), ((unsigned char)231))); hex(h, 8); putchar(10);
    mix(f0((-27699), ((unsigned short)34629), ((unsigned char)10))); hex(h, 8); putchar(10);
    mix(f1(34953u)); hex(h, 8); putchar(10);
    mix(f1(31112u)); hex(h, 8); putchar(10);
    mix(f2(((unsigned short)255))); hex(h, 8); putchar(10);
    mix(f2(((unsigned short)57460))); hex(h, 8); putchar(10);
    mix(f3(19439u)); hex(h, 8); putchar(10);
    mix(f3(2u)); hex(h, 8); putchar(10);
    mix(guc);
    mix(gsc);
    mix(gs);
    mix(gus);
    mix(gi);
    mix(gu);
    mix(gl);
    mix(gul);
    mix(gauc[0]);
    mix(gauc[1]);
    mix(gauc[2]);
    mix(gauc[3]);
    mix(gauc[4]);
    mix(gauc[5]);
    mix(gauc[6]);
    mix(gauc[7]);
    mix(gai[0]);
    mix(gai[1]);
    mix(gai[2]);
    mix(gai[3]);
    mix(gal[0]);
    mix(gal[1]);
    mix(gal[2]);
    mix(gal[3]);
    mix(gaus[0]);
    mix(gaus[1]);
    mix(gz.a);
    mix(gz.b);
    mix(gz.c);
    mix(gz.d);
    mix(gz.e);
    mix(gz.p);
    mix(gz.q);
    mix(gz.s);
    mix(gz.t);
    mix(gz.x);
    mix(gz2.a);
    mix(gz2.b);
    mix(gz2.c);
    mix(gz2.d);
    mix(gz2.e);
    mix(gz2.p);
    mix(gz2.q);
    mix(gz2.s);
    mix(gz2.t);
    mix(gz2.x);
    hex(h, 8); putchar(10);
    return 0;
}
