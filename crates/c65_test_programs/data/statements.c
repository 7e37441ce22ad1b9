int putchar(int c);
static void number(long n) { if (n < 0) { putchar('-'); n = -n; } if (n > 9) number(n / 10); putchar('0' + (int) (n % 10)); }
static void item(long n) { number(n); putchar(' '); }
static void end(void) { putchar('\n'); }

static int count;
static int tick(int n) { count++; return n; }
static void empty_forms(void) { ; ;; {} { ; } if (tick(1)) ; else item(9); while (tick(0)) ; for (; tick(0); ) ; do ; while (tick(0)); item(count); end(); }
static void ifs(int a, int b)
{
    if (a) if (b) item(1); else item(2);
    if (a) { if (b) item(3); } else item(4);
    if (a) item(5); else if (b) item(6); else item(7);
    if (!a) item(8);
    if (a && b) item(10);
    if (a || b) item(11);
    if (a ? b : !b) item(12);
    if (a, b) item(13);
    if (a == 1L) item(14);
    if (a < b) item(15); else item(16);
    end();
}
static void loops(void)
{
    int i, j, n = 0; register char c; long l;
    for (i = 0; i < 5; i++) { if (i == 1) continue; if (i == 4) break; item(i); }
    for (;;) { if (n++ > 3) break; }
    item(n);
    i = 0; while (i < 4) { i++; if (i == 2) continue; item(i); }
    i = 9; do { i--; if (i == 6) continue; item(i); } while (i > 5);
    i = 0; do item(i); while (i++ < 2);
    for (i = 0, j = 10; i < j; i += 3, j--) item(i * 100 + j);
    for (c = 250; c; c++) n++;
    item(n);
    for (l = 70000L; l > 0; l /= 10) item(l);
    for (i = 3; i--; ) for (j = i; j; --j) { if (j == 2) continue; item(i * 10 + j); }
    while (i < 5) { while (1) { if (++i % 3 == 0) break; } item(i); }
    end();
}
static int early(int n) { for (;;) { switch (n) { case 0: return 10; case 1: { int n = 20; return n; } case 2: break; default: n--; continue; } break; } do { if (n) return 30; } while (0); return 40; }
static void gives_nothing(int n) { if (n) return; item(77); }
static void gotos(void)
{
    int n = 0;
again: n++;
    if (n < 3) goto again;
    { int k = n; if (k == 3) goto inside; k = 100; inside: item(k); }
    goto over;
    item(1);
over: ;
    while (1) { for (;;) { do { goto out; } while (1); } }
out: item(n);
    { goto last; first: item(5); goto done; last: item(6); goto first; }
done: end();
}
static int device(int n)
{
    int sum = 0, k = (n + 3) / 4;
    switch (n % 4) { case 0: do { sum += 1; case 3: sum += 10; case 2: sum += 100; case 1: sum += 1000; } while (--k > 0); }
    return sum;
}
static void nested(int a, int b)
{
    int i;
    switch (a) {
        int unused;
    case 1: switch (b) { case 1: item(11); break; case 2: item(12); default: item(19); } item(10);
    case 2: item(20); break;
    default: if (b) { case 7: item(70); } else { case 8: item(80); break; }
        for (i = 0; i < 2; i++) { case 9: if (i > 5) i = 0; item(90 + i); }
    }
    switch (b) { } switch (b) default: item(33);
    switch (b) case 2: item(34);
    end();
}
static void blocks(void)
{
    int a = 1, b = a + 1; static int kept = 5; char text[4] = "abc", more[] = { 'x', 'y' }; int list[5] = { 1, 2 }; struct { char c; int i[3]; long l; } z = { 1, { 2, 3 } }, w = { 9 };
    long longs[40] = { 7 };
    item(a); item(b); { int a = 5; { int b = a * 2; item(b); a++; } item(a); } item(a);
    kept++; item(kept); item(text[0] + text[3]); item(more[1]); item(list[1] + list[4]); item(z.c + z.i[1] * 10 + z.i[2] + z.l); item(w.c + w.i[2]); item(longs[0] + longs[39]);
    for (a = 0; a < 2; a++) { int fresh = 3; static int still = 3; int zero[20] = { 0 }; fresh++; still++; zero[a]++; item(fresh * 100 + still * 10 + zero[0] + zero[1]); }
    end();
}
int main(void)
{
    int i;
    empty_forms();
    for (i = 0; i < 4; i++) ifs(i & 1, i >> 1);
    loops();
    for (i = 0; i < 4; i++) item(early(i));
    end();
    gives_nothing(1); gives_nothing(0); end();
    gotos();
    for (i = 1; i < 10; i++) item(device(i));
    end();
    nested(1, 1); nested(1, 2); nested(1, 3); nested(2, 0); nested(5, 1); nested(5, 0); nested(7, 2);
    blocks(); blocks();
    return 3;
}
