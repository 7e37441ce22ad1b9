int putchar(int c);
int failures;
void num(unsigned n) { if (n > 9) num(n / 10); putchar('0' + n % 10); }
void ck(int n, int ok) { if (!ok) { failures++; num(n); putchar(' '); } }

unsigned char guc; signed char gsc; int gi; unsigned gu; long gl; unsigned long gul; int ga[10]; int *gp;
struct S { int a; unsigned char c; long l; int arr[3]; } gs, gs2;

void globals(void) {
    guc = 200; gsc = -5; gi = -300; gu = 60000u; gl = -100000L; gul = 4000000000UL;
    ck(1, guc == 200); ck(2, gsc == -5); ck(3, gi == -300); ck(4, gu == 60000u); ck(5, gl == -100000L); ck(6, gul == 4000000000UL);
    guc += 100; ck(7, guc == 44);
    gsc -= 124; ck(8, gsc == 127);
    ck(9, guc++ == 44); ck(10, guc == 45); ck(11, ++guc == 46); ck(12, guc-- == 46); ck(13, --guc == 44);
    ck(14, gsc++ == 127); ck(15, gsc == -128); ck(16, --gsc == 127);
    ck(17, gi++ == -300); ck(18, gi == -299); ck(19, gl++ == -100000L); ck(20, gl == -99999L); ck(21, --gl == -100000L);
    gl *= 3; ck(22, gl == -300000L); gl /= 7; ck(23, gl == -42857L); gl %= 1000; ck(24, gl == -857L);
    gul >>= 4; ck(25, gul == 250000000UL); gul <<= 3; ck(26, gul == 2000000000UL); gul &= 0xffffUL; ck(27, gul == 37888UL);
    gu ^= 0xff00u; ck(28, gu == (60000u ^ 0xff00u)); gu |= 1; ck(29, (gu & 1) == 1); gi /= 2; ck(30, gi == -149); gi %= 10; ck(31, gi == -9);
    gi <<= 3; ck(32, gi == -72); gi >>= 2; ck(33, gi == -18);
    guc = gi; ck(34, guc == 238); gsc = gi; ck(35, gsc == -18); gl = gsc; ck(36, gl == -18L); gul = gsc; ck(37, gul == 4294967278UL);
    gl = gu; ck(38, gl == (long) gu); gl = guc; ck(39, gl == 238L); gi = 40000u; ck(40, gi == -25536);
    gi = gl = 70000L; ck(41, gi == 4464); ck(42, gl == 70000L);
}

void locals(int p, unsigned char q, long r) {
    unsigned char uc = 200; signed char sc = -5; int i = -300; unsigned u = 60000u; long l = -100000L; unsigned long ul = 4000000000UL;
    ck(101, p == 7); ck(102, q == 250); ck(103, r == 123456L);
    ck(104, uc == 200); ck(105, sc == -5); ck(106, i == -300); ck(107, u == 60000u); ck(108, l == -100000L); ck(109, ul == 4000000000UL);
    uc += 100; ck(110, uc == 44); sc -= 124; ck(111, sc == 127); ck(112, uc++ == 44); ck(113, --sc == 126); ck(114, i-- == -300); ck(115, ++l == -99999L);
    ck(116, l-- == -99999L); l += 5; ck(117, l == -99995L); l = l * l; ck(118, l == 1409065433L); ul = ul / 3; ck(119, ul == 1333333333UL); ul = ul % 1000; ck(120, ul == 333UL);
    q += 10; ck(121, q == 4); p -= 10; ck(122, p == -3); r = -r; ck(123, r == -123456L); r = ~r; ck(124, r == 123455L); ck(125, !r == 0); ck(126, !p == 0); p = 0; ck(127, !p == 1);
    i = -7; ck(128, i / 2 == -3); ck(129, i % 2 == -1); ck(130, i >> 1 == -4); ck(131, (u >> 4) == 3750); ck(132, -i == 7); ck(133, ~i == 6);
    ck(134, i < 1); ck(135, !(i > 1)); ck(136, i <= -7); ck(137, i >= -7); ck(138, i != 7); i = -32767 - 1; ck(139, i < 1); ck(140, u > 1); ck(141, l > ul); ck(142, -1L < 0L);
    ck(143, (i && u) == 1); ck(144, (i && p) == 0); ck(145, (p || l) == 1); ck(146, (p || 0L) == 0); ck(147, (p ? 3 : 4) == 4); ck(148, (l ? 3L : 4L) == 3L); ck(149, (p++, p) == 1);
    u = 1; u -= 2; ck(150, u == 65535u); ck(151, u + 1 == 0); ck(152, u > 5); ck(153, (int) u == -1);
    ck(154, 3 - i == -32765); ck(155, i + 1 == -32767); ck(156, (u & 0x0ff0) == 0x0ff0); ck(157, (u | 1) == u); ck(158, (u ^ u) == 0);
    l = 1L << 20; ck(159, l == 1048576L); l = l >> 3; ck(160, l == 131072L); l = -l; l >>= 4; ck(161, l == -8192L); i = 3; l <<= i; ck(162, l == -65536L); i <<= 2L; ck(163, i == 12);
    i += 100000L; ck(164, i == -31060); uc = 7; uc *= 50; ck(165, uc == 94); uc /= 10; ck(166, uc == 9); uc <<= 5; ck(167, uc == 32); uc %= 10; ck(168, uc == 2); uc = ~uc; ck(169, uc == 253);
}

int *add(int *p, int n) { return p + n; }

void pointers(void) {
    int a[10]; int *p; int *q; int i; char s[8]; char *t; long m[4]; long *lp; int two[3][4]; struct S st, *sp; int **pp;
    for (i = 0; i < 10; i++) a[i] = i * i;
    p = a; ck(201, *p == 0); ck(202, *++p == 1); ck(203, *p++ == 1); ck(204, *p == 4); ck(205, p[3] == 25); ck(206, p - a == 2); q = &a[9]; ck(207, q - p == 7); ck(208, *q-- == 81); ck(209, *q == 64);
    ck(210, p < q); ck(211, q > p); ck(212, p != q); p += 3; ck(213, *p == 25); p -= 2; ck(214, *p == 9); ck(215, *(p + 1) == 16); ck(216, *(2 + p) == 25); ck(217, *(p - 1) == 4); ck(218, *add(a, 5) == 25);
    *p = -1; ck(219, a[3] == -1); a[3] += 10; ck(220, a[3] == 9); a[i = 4] *= 2; ck(221, a[4] == 32 && i == 4); ck(222, a[i++]++ == 32); ck(223, a[4] == 33 && i == 5); ck(224, --a[4] == 32);
    t = s; *t++ = 'a'; *t++ = 'b'; *t = 0; ck(225, s[0] == 'a' && s[1] == 'b' && s[2] == 0); ck(226, t - s == 2); ck(227, "xyz"[1] == 'y'); t = "hello"; ck(228, t[4] == 'o'); ck(229, *(t + 1) == 'e');
    lp = m; for (i = 0; i < 4; i++) *lp++ = i * 100000L; ck(230, m[3] == 300000L); ck(231, lp - m == 4); ck(232, lp[-1] == 300000L); lp[-2] -= 5; ck(233, m[2] == 199995L); ck(234, m[1]++ == 100000L); ck(235, m[1] == 100001L);
    for (i = 0; i < 12; i++) two[i / 4][i % 4] = i; ck(236, two[2][1] == 9); ck(237, *(*(two + 1) + 2) == 6); ck(238, &two[2] - &two[0] == 2);
    sp = &st; sp->a = 5; sp->c = 250; sp->l = 1000000L; sp->arr[0] = 1; sp->arr[1] = 2; sp->arr[2] = 3; ck(239, st.a == 5); ck(240, st.c == 250); ck(241, st.l == 1000000L); ck(242, st.arr[2] == 3); st.c += 10; ck(243, sp->c == 4); sp->l++; ck(244, st.l == 1000001L); sp->arr[1] <<= 4; ck(245, st.arr[1] == 32);
    gs = st; ck(246, gs.a == 5 && gs.c == 4 && gs.l == 1000001L && gs.arr[1] == 32); gs2 = *sp; ck(247, gs2.l == 1000001L); sp = &gs; sp->a = 9; st = *sp; ck(248, st.a == 9); gs2.a = 77; st = gs = gs2; ck(249, st.a == 77); ck(250, (gs = st).a == 77);
    gp = &ga[3]; *gp = 12; ck(251, ga[3] == 12); gp[1] = 13; ck(252, ga[4] == 13); pp = &gp; **pp = 14; ck(253, ga[3] == 14); *pp = ga; ck(254, gp == ga); (*pp)++; ck(255, gp == ga + 1); p = 0; ck(256, !p); ck(257, p == 0); ck(258, (p ? 1 : 2) == 2); ck(259, (gp && !p) == 1);
}

struct B { unsigned a : 3, b : 6, c : 9; signed int d : 5; unsigned e : 16; signed f : 16; } gb;

void fields(void) {
    struct B b; struct B *p = &b; int i;
    b.a = 5; b.b = 70; b.c = 300; b.d = -3; b.e = 65535u; b.f = -2;
    ck(301, b.a == 5); ck(302, b.b == 6); ck(303, b.c == 300); ck(304, b.d == -3); ck(305, b.e == 65535u); ck(306, b.f == -2);
    ck(307, (b.a = 13) == 5); ck(308, b.a++ == 5); ck(309, b.a == 6); b.a += 3; ck(310, b.a == 1); ck(311, b.b == 6 && b.c == 300 && b.d == -3); ck(312, --b.a == 0); ck(313, --b.a == 7); ck(314, b.a-- == 7);
    p->d = 15; ck(315, p->d++ == 15); ck(316, p->d == -16); ck(317, p->d-- == -16); ck(318, b.d == 15); p->d -= 40; ck(319, b.d == 7); p->c <<= 1; ck(320, b.c == 88); p->e++; ck(321, b.e == 0); i = p->f = 5; ck(322, i == 5); p->f *= -3; ck(323, b.f == -15);
    gb.a = 7; gb.b = 63; gb.c = 511; gb.d = -1; ck(324, gb.a == 7 && gb.b == 63 && gb.c == 511 && gb.d == -1); gb.b = 0; ck(325, gb.a == 7 && gb.c == 511 && gb.b == 0); ck(326, ++gb.c == 0); ck(327, gb.c-- == 0); ck(328, gb.c == 511); gb = b; ck(329, gb.c == 88); ck(330, (p = &gb)->f == -15);
}

long mix(char a, int b, long c, unsigned char d) { return a + b * 10L + c * 100 + d * 1000L; }
char last(int a, char b) { return a + b; }
signed char neg(signed char x) { return -x; }
long twice(long x) { return x + x; }
int old(a, b) int a; char b; { return a * b; }
int __cdecl__ cd(int a, char b, long c) { return a + b + (int) c; }
int var(int a, char *s, ...) { return a * 10 + s[0]; }
void nothing(void) { gi = 55; }
int zero(void) { return 77; }
int fib(int n) { return n < 2 ? n : fib(n - 1) + fib(n - 2); }

void calls(void) {
    int (*f)() = old; long (*g)(char, int, long, unsigned char) = mix; long (*h)(long) = twice; void (*v)(void) = nothing; int (*z)(void); int (*w)(int, char *, ...) = var; int (*tab[2])(void); signed char (*n)(signed char) = neg; int (__cdecl__ *c)(int, char, long) = cd;
    ck(401, mix(1, 2, 3L, 4) == 4321L); ck(402, last(300, 7) == 51); ck(403, neg(-100) == 100); ck(404, neg(100) == -100); ck(405, twice(-70000L) == -140000L); ck(406, old(6, 7) == 42); ck(407, cd(1, 2, 100000L) == -31069); ck(408, var(3, "A") == 95); ck(409, var(3, "A", 5, 6L) == 95);
    nothing(); ck(410, gi == 55); ck(411, zero() == 77); ck(412, fib(10) == 55);
    ck(413, f(6, 7) == 42); ck(414, g(1, 2, 3L, 4) == 4321L); ck(415, (*h)(5L) == 10L); gi = 0; v(); ck(416, gi == 55); z = zero; ck(417, z() == 77); ck(418, w(3, "B", 1) == 96); tab[0] = zero; tab[1] = z; ck(419, tab[1]() == 77); ck(420, n(-5) == 5); ck(421, c(1, 2, 3L) == 6); ck(422, twice(twice(mix(1, fib(5), 0L, 0))) == 204L); ck(423, mix(fib(3), g(0, 1, 0L, 0), twice(1L), last(1, 2)) == 3302L);
}

int big(int a, long b) {
    char pad[300]; int i; long l; int arr[100]; struct S s; int *p;
    pad[0] = 1; pad[299] = 2; i = a; l = b; arr[99] = 5; s.a = 6; s.l = 7L; p = &i;
    ck(501, a == 3); ck(502, b == 90000L); ck(503, i == 3); ck(504, l == 90000L); i += 4; ck(505, i == 7); l -= 1; ck(506, l == 89999L); ck(507, i++ == 7); ck(508, *p == 8); ck(509, arr[99] == 5 && s.a == 6 && s.l == 7L && pad[0] == 1 && pad[299] == 2); a *= i; ck(510, a == 24); b = l = i; ck(511, b == 8L && l == 8L); ck(512, mix(1, i, l, pad[299]) == 2881L); s = gs; ck(513, s.a == 77); s.c = 9; ck(514, --s.c == 8); ck(515, (s.arr[2] = a) == 24);
    return i + a;
}

union U { int i; unsigned char c[2]; long l; };

int vbig(int a, long b, char *s, ...) { char pad[10]; pad[0] = 1; a += 2; b++; return a * 2 + (int) b + s[0] + pad[0]; }

int main(void) {
    union U u; register int r = 5; register char *rp = "reg"; int k;
    globals(); locals(7, 250, 123456L); pointers(); fields(); calls(); ck(601, big(3, 90000L) == 32);
    u.l = 0x01020304L; ck(602, u.c[0] == 4 && u.c[1] == 3 && u.i == 0x0304); u.c[1] = 9; ck(603, u.i == 0x0904);
    ck(604, vbig(1, 2L, "A") == 75); ck(605, vbig(1, 2L, "A", 1, 2L, "x") == 75);
    for (k = 0; k < 3; k++) r += k; ck(606, r == 8); ck(607, *rp++ == 'r' && *rp == 'e'); r <<= 2; ck(608, r-- == 32 && r == 31); ck(609, rp[1] == 'g');
    putchar('k'); putchar('\n');
    return failures;
}
