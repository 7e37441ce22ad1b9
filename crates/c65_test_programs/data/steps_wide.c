int putchar(int c);
static unsigned long sum;
static void mix(unsigned long v) { sum = sum + sum + sum + v; }
static void hex(unsigned long n, int digits) { if (digits > 1) hex(n >> 4, digits - 1); putchar("0123456789abcdef"[n & 15]); }
static void show(int end) { hex(sum, 8); putchar(end); sum = 0; }
static int from_i[] = { (-32767 - 1), (-257), (-128), (-1), 0, 1, 15, 256, 32767 };
static void step_i(void)
{
    int i;
    register int bank; int near; static int kept; int cells[3], *far = cells + 1;
    struct { int first, part; } z, *q = &z; char pad[260]; int beyond;
    for (i = 0; i < 9; i++) { bank = from_i[i]; mix(-bank); mix(~bank); mix(!bank); mix(+bank); mix(bank++); mix(bank); mix(++bank); mix(bank--); mix(bank); mix(--bank); mix(bank ? 3 : 4); if (!bank) mix(5); if (bank) mix(6); else mix(8); mix(sizeof bank + sizeof -bank); bank++; --bank; mix(-(bank++)); mix(bank); } show(' ');
    for (i = 0; i < 9; i++) { near = from_i[i]; mix(-near); mix(~near); mix(!near); mix(+near); mix(near++); mix(near); mix(++near); mix(near--); mix(near); mix(--near); mix(near ? 3 : 4); if (!near) mix(5); if (near) mix(6); else mix(8); mix(sizeof near + sizeof -near); near++; --near; mix(-(near++)); mix(near); } show(' ');
    for (i = 0; i < 9; i++) { kept = from_i[i]; mix(-kept); mix(~kept); mix(!kept); mix(+kept); mix(kept++); mix(kept); mix(++kept); mix(kept--); mix(kept); mix(--kept); mix(kept ? 3 : 4); if (!kept) mix(5); if (kept) mix(6); else mix(8); mix(sizeof kept + sizeof -kept); kept++; --kept; mix(-(kept++)); mix(kept); } show(' ');
    for (i = 0; i < 9; i++) { (*far) = from_i[i]; mix(-(*far)); mix(~(*far)); mix(!(*far)); mix(+(*far)); mix((*far)++); mix((*far)); mix(++(*far)); mix((*far)--); mix((*far)); mix(--(*far)); mix((*far) ? 3 : 4); if (!(*far)) mix(5); if ((*far)) mix(6); else mix(8); mix(sizeof (*far) + sizeof -(*far)); (*far)++; --(*far); mix(-((*far)++)); mix((*far)); } show(' ');
    for (i = 0; i < 9; i++) { beyond = from_i[i]; mix(-beyond); mix(~beyond); mix(!beyond); mix(+beyond); mix(beyond++); mix(beyond); mix(++beyond); mix(beyond--); mix(beyond); mix(--beyond); mix(beyond ? 3 : 4); if (!beyond) mix(5); if (beyond) mix(6); else mix(8); mix(sizeof beyond + sizeof -beyond); beyond++; --beyond; mix(-(beyond++)); mix(beyond); } show(' ');
    for (i = 0; i < 9; i++) { z.part = from_i[i]; mix(-z.part); mix(~z.part); mix(!z.part); mix(+z.part); mix(z.part++); mix(z.part); mix(++z.part); mix(z.part--); mix(z.part); mix(--z.part); mix(z.part ? 3 : 4); if (!z.part) mix(5); if (z.part) mix(6); else mix(8); mix(sizeof z.part + sizeof -z.part); z.part++; --z.part; mix(-(z.part++)); mix(z.part); } show(' ');
    for (i = 0; i < 9; i++) { q->part = from_i[i]; mix(-q->part); mix(~q->part); mix(!q->part); mix(+q->part); mix(q->part++); mix(q->part); mix(++q->part); mix(q->part--); mix(q->part); mix(--q->part); mix(q->part ? 3 : 4); if (!q->part) mix(5); if (q->part) mix(6); else mix(8); mix(sizeof q->part + sizeof -q->part); q->part++; --q->part; mix(-(q->part++)); mix(q->part); } show(' ');
    putchar(10);
}
static unsigned int from_u[] = { 0u, 1u, 16u, 127u, 255u, 32768u, 40000u, 65535u };
static void step_u(void)
{
    int i;
    register unsigned int bank; unsigned int near; static unsigned int kept; unsigned int cells[3], *far = cells + 1;
    struct { unsigned int first, part; } z, *q = &z; char pad[260]; unsigned int beyond;
    for (i = 0; i < 8; i++) { bank = from_u[i]; mix(-bank); mix(~bank); mix(!bank); mix(+bank); mix(bank++); mix(bank); mix(++bank); mix(bank--); mix(bank); mix(--bank); mix(bank ? 3 : 4); if (!bank) mix(5); if (bank) mix(6); else mix(8); mix(sizeof bank + sizeof -bank); bank++; --bank; mix(-(bank++)); mix(bank); } show(' ');
    for (i = 0; i < 8; i++) { near = from_u[i]; mix(-near); mix(~near); mix(!near); mix(+near); mix(near++); mix(near); mix(++near); mix(near--); mix(near); mix(--near); mix(near ? 3 : 4); if (!near) mix(5); if (near) mix(6); else mix(8); mix(sizeof near + sizeof -near); near++; --near; mix(-(near++)); mix(near); } show(' ');
    for (i = 0; i < 8; i++) { kept = from_u[i]; mix(-kept); mix(~kept); mix(!kept); mix(+kept); mix(kept++); mix(kept); mix(++kept); mix(kept--); mix(kept); mix(--kept); mix(kept ? 3 : 4); if (!kept) mix(5); if (kept) mix(6); else mix(8); mix(sizeof kept + sizeof -kept); kept++; --kept; mix(-(kept++)); mix(kept); } show(' ');
    for (i = 0; i < 8; i++) { (*far) = from_u[i]; mix(-(*far)); mix(~(*far)); mix(!(*far)); mix(+(*far)); mix((*far)++); mix((*far)); mix(++(*far)); mix((*far)--); mix((*far)); mix(--(*far)); mix((*far) ? 3 : 4); if (!(*far)) mix(5); if ((*far)) mix(6); else mix(8); mix(sizeof (*far) + sizeof -(*far)); (*far)++; --(*far); mix(-((*far)++)); mix((*far)); } show(' ');
    for (i = 0; i < 8; i++) { beyond = from_u[i]; mix(-beyond); mix(~beyond); mix(!beyond); mix(+beyond); mix(beyond++); mix(beyond); mix(++beyond); mix(beyond--); mix(beyond); mix(--beyond); mix(beyond ? 3 : 4); if (!beyond) mix(5); if (beyond) mix(6); else mix(8); mix(sizeof beyond + sizeof -beyond); beyond++; --beyond; mix(-(beyond++)); mix(beyond); } show(' ');
    for (i = 0; i < 8; i++) { z.part = from_u[i]; mix(-z.part); mix(~z.part); mix(!z.part); mix(+z.part); mix(z.part++); mix(z.part); mix(++z.part); mix(z.part--); mix(z.part); mix(--z.part); mix(z.part ? 3 : 4); if (!z.part) mix(5); if (z.part) mix(6); else mix(8); mix(sizeof z.part + sizeof -z.part); z.part++; --z.part; mix(-(z.part++)); mix(z.part); } show(' ');
    for (i = 0; i < 8; i++) { q->part = from_u[i]; mix(-q->part); mix(~q->part); mix(!q->part); mix(+q->part); mix(q->part++); mix(q->part); mix(++q->part); mix(q->part--); mix(q->part); mix(--q->part); mix(q->part ? 3 : 4); if (!q->part) mix(5); if (q->part) mix(6); else mix(8); mix(sizeof q->part + sizeof -q->part); q->part++; --q->part; mix(-(q->part++)); mix(q->part); } show(' ');
    putchar(10);
}
static long from_l[] = { (-2147483647L - 1), (-65537L), (-32769L), (-1L), 0L, 1L, 255L, 65535L, 65536L, 2147483647L };
static void step_l(void)
{
    int i;
    register long bank; long near; static long kept; long cells[3], *far = cells + 1;
    struct { long first, part; } z, *q = &z; char pad[260]; long beyond;
    for (i = 0; i < 10; i++) { bank = from_l[i]; mix(-bank); mix(~bank); mix(!bank); mix(+bank); mix(bank++); mix(bank); mix(++bank); mix(bank--); mix(bank); mix(--bank); mix(bank ? 3 : 4); if (!bank) mix(5); if (bank) mix(6); else mix(8); mix(sizeof bank + sizeof -bank); bank++; --bank; mix(-(bank++)); mix(bank); } show(' ');
    for (i = 0; i < 10; i++) { near = from_l[i]; mix(-near); mix(~near); mix(!near); mix(+near); mix(near++); mix(near); mix(++near); mix(near--); mix(near); mix(--near); mix(near ? 3 : 4); if (!near) mix(5); if (near) mix(6); else mix(8); mix(sizeof near + sizeof -near); near++; --near; mix(-(near++)); mix(near); } show(' ');
    for (i = 0; i < 10; i++) { kept = from_l[i]; mix(-kept); mix(~kept); mix(!kept); mix(+kept); mix(kept++); mix(kept); mix(++kept); mix(kept--); mix(kept); mix(--kept); mix(kept ? 3 : 4); if (!kept) mix(5); if (kept) mix(6); else mix(8); mix(sizeof kept + sizeof -kept); kept++; --kept; mix(-(kept++)); mix(kept); } show(' ');
    for (i = 0; i < 10; i++) { (*far) = from_l[i]; mix(-(*far)); mix(~(*far)); mix(!(*far)); mix(+(*far)); mix((*far)++); mix((*far)); mix(++(*far)); mix((*far)--); mix((*far)); mix(--(*far)); mix((*far) ? 3 : 4); if (!(*far)) mix(5); if ((*far)) mix(6); else mix(8); mix(sizeof (*far) + sizeof -(*far)); (*far)++; --(*far); mix(-((*far)++)); mix((*far)); } show(' ');
    for (i = 0; i < 10; i++) { beyond = from_l[i]; mix(-beyond); mix(~beyond); mix(!beyond); mix(+beyond); mix(beyond++); mix(beyond); mix(++beyond); mix(beyond--); mix(beyond); mix(--beyond); mix(beyond ? 3 : 4); if (!beyond) mix(5); if (beyond) mix(6); else mix(8); mix(sizeof beyond + sizeof -beyond); beyond++; --beyond; mix(-(beyond++)); mix(beyond); } show(' ');
    for (i = 0; i < 10; i++) { z.part = from_l[i]; mix(-z.part); mix(~z.part); mix(!z.part); mix(+z.part); mix(z.part++); mix(z.part); mix(++z.part); mix(z.part--); mix(z.part); mix(--z.part); mix(z.part ? 3 : 4); if (!z.part) mix(5); if (z.part) mix(6); else mix(8); mix(sizeof z.part + sizeof -z.part); z.part++; --z.part; mix(-(z.part++)); mix(z.part); } show(' ');
    for (i = 0; i < 10; i++) { q->part = from_l[i]; mix(-q->part); mix(~q->part); mix(!q->part); mix(+q->part); mix(q->part++); mix(q->part); mix(++q->part); mix(q->part--); mix(q->part); mix(--q->part); mix(q->part ? 3 : 4); if (!q->part) mix(5); if (q->part) mix(6); else mix(8); mix(sizeof q->part + sizeof -q->part); q->part++; --q->part; mix(-(q->part++)); mix(q->part); } show(' ');
    putchar(10);
}
static unsigned long from_ul[] = { 0UL, 1UL, 31UL, 65535UL, 65536UL, 2147483647UL, 2147483648UL, 4294967295UL };
static void step_ul(void)
{
    int i;
    register unsigned long bank; unsigned long near; static unsigned long kept; unsigned long cells[3], *far = cells + 1;
    struct { unsigned long first, part; } z, *q = &z; char pad[260]; unsigned long beyond;
    for (i = 0; i < 8; i++) { bank = from_ul[i]; mix(-bank); mix(~bank); mix(!bank); mix(+bank); mix(bank++); mix(bank); mix(++bank); mix(bank--); mix(bank); mix(--bank); mix(bank ? 3 : 4); if (!bank) mix(5); if (bank) mix(6); else mix(8); mix(sizeof bank + sizeof -bank); bank++; --bank; mix(-(bank++)); mix(bank); } show(' ');
    for (i = 0; i < 8; i++) { near = from_ul[i]; mix(-near); mix(~near); mix(!near); mix(+near); mix(near++); mix(near); mix(++near); mix(near--); mix(near); mix(--near); mix(near ? 3 : 4); if (!near) mix(5); if (near) mix(6); else mix(8); mix(sizeof near + sizeof -near); near++; --near; mix(-(near++)); mix(near); } show(' ');
    for (i = 0; i < 8; i++) { kept = from_ul[i]; mix(-kept); mix(~kept); mix(!kept); mix(+kept); mix(kept++); mix(kept); mix(++kept); mix(kept--); mix(kept); mix(--kept); mix(kept ? 3 : 4); if (!kept) mix(5); if (kept) mix(6); else mix(8); mix(sizeof kept + sizeof -kept); kept++; --kept; mix(-(kept++)); mix(kept); } show(' ');
    for (i = 0; i < 8; i++) { (*far) = from_ul[i]; mix(-(*far)); mix(~(*far)); mix(!(*far)); mix(+(*far)); mix((*far)++); mix((*far)); mix(++(*far)); mix((*far)--); mix((*far)); mix(--(*far)); mix((*far) ? 3 : 4); if (!(*far)) mix(5); if ((*far)) mix(6); else mix(8); mix(sizeof (*far) + sizeof -(*far)); (*far)++; --(*far); mix(-((*far)++)); mix((*far)); } show(' ');
    for (i = 0; i < 8; i++) { beyond = from_ul[i]; mix(-beyond); mix(~beyond); mix(!beyond); mix(+beyond); mix(beyond++); mix(beyond); mix(++beyond); mix(beyond--); mix(beyond); mix(--beyond); mix(beyond ? 3 : 4); if (!beyond) mix(5); if (beyond) mix(6); else mix(8); mix(sizeof beyond + sizeof -beyond); beyond++; --beyond; mix(-(beyond++)); mix(beyond); } show(' ');
    for (i = 0; i < 8; i++) { z.part = from_ul[i]; mix(-z.part); mix(~z.part); mix(!z.part); mix(+z.part); mix(z.part++); mix(z.part); mix(++z.part); mix(z.part--); mix(z.part); mix(--z.part); mix(z.part ? 3 : 4); if (!z.part) mix(5); if (z.part) mix(6); else mix(8); mix(sizeof z.part + sizeof -z.part); z.part++; --z.part; mix(-(z.part++)); mix(z.part); } show(' ');
    for (i = 0; i < 8; i++) { q->part = from_ul[i]; mix(-q->part); mix(~q->part); mix(!q->part); mix(+q->part); mix(q->part++); mix(q->part); mix(++q->part); mix(q->part--); mix(q->part); mix(--q->part); mix(q->part ? 3 : 4); if (!q->part) mix(5); if (q->part) mix(6); else mix(8); mix(sizeof q->part + sizeof -q->part); q->part++; --q->part; mix(-(q->part++)); mix(q->part); } show(' ');
    putchar(10);
}
int main(void)
{
    step_i();
    step_u();
    step_l();
    step_ul();
    return 0;
}
