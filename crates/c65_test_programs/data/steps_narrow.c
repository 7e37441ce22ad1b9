int putchar(int c);
static unsigned long sum;
static void mix(unsigned long v) { sum = sum + sum + sum + v; }
static void hex(unsigned long n, int digits) { if (digits > 1) hex(n >> 4, digits - 1); putchar("0123456789abcdef"[n & 15]); }
static void show(int end) { hex(sum, 8); putchar(end); sum = 0; }
static unsigned char from_uc[] = { ((unsigned char) 0), ((unsigned char) 1), ((unsigned char) 2), ((unsigned char) 7), ((unsigned char) 127), ((unsigned char) 128), ((unsigned char) 200), ((unsigned char) 255) };
static void step_uc(void)
{
    int i;
    register unsigned char bank; unsigned char near; static unsigned char kept; unsigned char cells[3], *far = cells + 1;
    struct { unsigned char first, part; } z, *q = &z; char pad[260]; unsigned char beyond;
    for (i = 0; i < 8; i++) { bank = from_uc[i]; mix(-bank); mix(~bank); mix(!bank); mix(+bank); mix(bank++); mix(bank); mix(++bank); mix(bank--); mix(bank); mix(--bank); mix(bank ? 3 : 4); if (!bank) mix(5); if (bank) mix(6); else mix(8); mix(sizeof bank + sizeof -bank); bank++; --bank; mix(-(bank++)); mix(bank); } show(' ');
    for (i = 0; i < 8; i++) { near = from_uc[i]; mix(-near); mix(~near); mix(!near); mix(+near); mix(near++); mix(near); mix(++near); mix(near--); mix(near); mix(--near); mix(near ? 3 : 4); if (!near) mix(5); if (near) mix(6); else mix(8); mix(sizeof near + sizeof -near); near++; --near; mix(-(near++)); mix(near); } show(' ');
    for (i = 0; i < 8; i++) { kept = from_uc[i]; mix(-kept); mix(~kept); mix(!kept); mix(+kept); mix(kept++); mix(kept); mix(++kept); mix(kept--); mix(kept); mix(--kept); mix(kept ? 3 : 4); if (!kept) mix(5); if (kept) mix(6); else mix(8); mix(sizeof kept + sizeof -kept); kept++; --kept; mix(-(kept++)); mix(kept); } show(' ');
    for (i = 0; i < 8; i++) { (*far) = from_uc[i]; mix(-(*far)); mix(~(*far)); mix(!(*far)); mix(+(*far)); mix((*far)++); mix((*far)); mix(++(*far)); mix((*far)--); mix((*far)); mix(--(*far)); mix((*far) ? 3 : 4); if (!(*far)) mix(5); if ((*far)) mix(6); else mix(8); mix(sizeof (*far) + sizeof -(*far)); (*far)++; --(*far); mix(-((*far)++)); mix((*far)); } show(' ');
    for (i = 0; i < 8; i++) { beyond = from_uc[i]; mix(-beyond); mix(~beyond); mix(!beyond); mix(+beyond); mix(beyond++); mix(beyond); mix(++beyond); mix(beyond--); mix(beyond); mix(--beyond); mix(beyond ? 3 : 4); if (!beyond) mix(5); if (beyond) mix(6); else mix(8); mix(sizeof beyond + sizeof -beyond); beyond++; --beyond; mix(-(beyond++)); mix(beyond); } show(' ');
    for (i = 0; i < 8; i++) { z.part = from_uc[i]; mix(-z.part); mix(~z.part); mix(!z.part); mix(+z.part); mix(z.part++); mix(z.part); mix(++z.part); mix(z.part--); mix(z.part); mix(--z.part); mix(z.part ? 3 : 4); if (!z.part) mix(5); if (z.part) mix(6); else mix(8); mix(sizeof z.part + sizeof -z.part); z.part++; --z.part; mix(-(z.part++)); mix(z.part); } show(' ');
    for (i = 0; i < 8; i++) { q->part = from_uc[i]; mix(-q->part); mix(~q->part); mix(!q->part); mix(+q->part); mix(q->part++); mix(q->part); mix(++q->part); mix(q->part--); mix(q->part); mix(--q->part); mix(q->part ? 3 : 4); if (!q->part) mix(5); if (q->part) mix(6); else mix(8); mix(sizeof q->part + sizeof -q->part); q->part++; --q->part; mix(-(q->part++)); mix(q->part); } show(' ');
    putchar(10);
}
static signed char from_sc[] = { ((signed char) -128), ((signed char) -127), ((signed char) -2), ((signed char) -1), ((signed char) 0), ((signed char) 1), ((signed char) 7), ((signed char) 127) };
static void step_sc(void)
{
    int i;
    register signed char bank; signed char near; static signed char kept; signed char cells[3], *far = cells + 1;
    struct { signed char first, part; } z, *q = &z; char pad[260]; signed char beyond;
    for (i = 0; i < 8; i++) { bank = from_sc[i]; mix(-bank); mix(~bank); mix(!bank); mix(+bank); mix(bank++); mix(bank); mix(++bank); mix(bank--); mix(bank); mix(--bank); mix(bank ? 3 : 4); if (!bank) mix(5); if (bank) mix(6); else mix(8); mix(sizeof bank + sizeof -bank); bank++; --bank; mix(-(bank++)); mix(bank); } show(' ');
    for (i = 0; i < 8; i++) { near = from_sc[i]; mix(-near); mix(~near); mix(!near); mix(+near); mix(near++); mix(near); mix(++near); mix(near--); mix(near); mix(--near); mix(near ? 3 : 4); if (!near) mix(5); if (near) mix(6); else mix(8); mix(sizeof near + sizeof -near); near++; --near; mix(-(near++)); mix(near); } show(' ');
    for (i = 0; i < 8; i++) { kept = from_sc[i]; mix(-kept); mix(~kept); mix(!kept); mix(+kept); mix(kept++); mix(kept); mix(++kept); mix(kept--); mix(kept); mix(--kept); mix(kept ? 3 : 4); if (!kept) mix(5); if (kept) mix(6); else mix(8); mix(sizeof kept + sizeof -kept); kept++; --kept; mix(-(kept++)); mix(kept); } show(' ');
    for (i = 0; i < 8; i++) { (*far) = from_sc[i]; mix(-(*far)); mix(~(*far)); mix(!(*far)); mix(+(*far)); mix((*far)++); mix((*far)); mix(++(*far)); mix((*far)--); mix((*far)); mix(--(*far)); mix((*far) ? 3 : 4); if (!(*far)) mix(5); if ((*far)) mix(6); else mix(8); mix(sizeof (*far) + sizeof -(*far)); (*far)++; --(*far); mix(-((*far)++)); mix((*far)); } show(' ');
    for (i = 0; i < 8; i++) { beyond = from_sc[i]; mix(-beyond); mix(~beyond); mix(!beyond); mix(+beyond); mix(beyond++); mix(beyond); mix(++beyond); mix(beyond--); mix(beyond); mix(--beyond); mix(beyond ? 3 : 4); if (!beyond) mix(5); if (beyond) mix(6); else mix(8); mix(sizeof beyond + sizeof -beyond); beyond++; --beyond; mix(-(beyond++)); mix(beyond); } show(' ');
    for (i = 0; i < 8; i++) { z.part = from_sc[i]; mix(-z.part); mix(~z.part); mix(!z.part); mix(+z.part); mix(z.part++); mix(z.part); mix(++z.part); mix(z.part--); mix(z.part); mix(--z.part); mix(z.part ? 3 : 4); if (!z.part) mix(5); if (z.part) mix(6); else mix(8); mix(sizeof z.part + sizeof -z.part); z.part++; --z.part; mix(-(z.part++)); mix(z.part); } show(' ');
    for (i = 0; i < 8; i++) { q->part = from_sc[i]; mix(-q->part); mix(~q->part); mix(!q->part); mix(+q->part); mix(q->part++); mix(q->part); mix(++q->part); mix(q->part--); mix(q->part); mix(--q->part); mix(q->part ? 3 : 4); if (!q->part) mix(5); if (q->part) mix(6); else mix(8); mix(sizeof q->part + sizeof -q->part); q->part++; --q->part; mix(-(q->part++)); mix(q->part); } show(' ');
    putchar(10);
}
static short from_s[] = { ((short) -32768), ((short) -32767), ((short) -256), ((short) -1), ((short) 0), ((short) 3), ((short) 255), ((short) 32767) };
static void step_s(void)
{
    int i;
    register short bank; short near; static short kept; short cells[3], *far = cells + 1;
    struct { short first, part; } z, *q = &z; char pad[260]; short beyond;
    for (i = 0; i < 8; i++) { bank = from_s[i]; mix(-bank); mix(~bank); mix(!bank); mix(+bank); mix(bank++); mix(bank); mix(++bank); mix(bank--); mix(bank); mix(--bank); mix(bank ? 3 : 4); if (!bank) mix(5); if (bank) mix(6); else mix(8); mix(sizeof bank + sizeof -bank); bank++; --bank; mix(-(bank++)); mix(bank); } show(' ');
    for (i = 0; i < 8; i++) { near = from_s[i]; mix(-near); mix(~near); mix(!near); mix(+near); mix(near++); mix(near); mix(++near); mix(near--); mix(near); mix(--near); mix(near ? 3 : 4); if (!near) mix(5); if (near) mix(6); else mix(8); mix(sizeof near + sizeof -near); near++; --near; mix(-(near++)); mix(near); } show(' ');
    for (i = 0; i < 8; i++) { kept = from_s[i]; mix(-kept); mix(~kept); mix(!kept); mix(+kept); mix(kept++); mix(kept); mix(++kept); mix(kept--); mix(kept); mix(--kept); mix(kept ? 3 : 4); if (!kept) mix(5); if (kept) mix(6); else mix(8); mix(sizeof kept + sizeof -kept); kept++; --kept; mix(-(kept++)); mix(kept); } show(' ');
    for (i = 0; i < 8; i++) { (*far) = from_s[i]; mix(-(*far)); mix(~(*far)); mix(!(*far)); mix(+(*far)); mix((*far)++); mix((*far)); mix(++(*far)); mix((*far)--); mix((*far)); mix(--(*far)); mix((*far) ? 3 : 4); if (!(*far)) mix(5); if ((*far)) mix(6); else mix(8); mix(sizeof (*far) + sizeof -(*far)); (*far)++; --(*far); mix(-((*far)++)); mix((*far)); } show(' ');
    for (i = 0; i < 8; i++) { beyond = from_s[i]; mix(-beyond); mix(~beyond); mix(!beyond); mix(+beyond); mix(beyond++); mix(beyond); mix(++beyond); mix(beyond--); mix(beyond); mix(--beyond); mix(beyond ? 3 : 4); if (!beyond) mix(5); if (beyond) mix(6); else mix(8); mix(sizeof beyond + sizeof -beyond); beyond++; --beyond; mix(-(beyond++)); mix(beyond); } show(' ');
    for (i = 0; i < 8; i++) { z.part = from_s[i]; mix(-z.part); mix(~z.part); mix(!z.part); mix(+z.part); mix(z.part++); mix(z.part); mix(++z.part); mix(z.part--); mix(z.part); mix(--z.part); mix(z.part ? 3 : 4); if (!z.part) mix(5); if (z.part) mix(6); else mix(8); mix(sizeof z.part + sizeof -z.part); z.part++; --z.part; mix(-(z.part++)); mix(z.part); } show(' ');
    for (i = 0; i < 8; i++) { q->part = from_s[i]; mix(-q->part); mix(~q->part); mix(!q->part); mix(+q->part); mix(q->part++); mix(q->part); mix(++q->part); mix(q->part--); mix(q->part); mix(--q->part); mix(q->part ? 3 : 4); if (!q->part) mix(5); if (q->part) mix(6); else mix(8); mix(sizeof q->part + sizeof -q->part); q->part++; --q->part; mix(-(q->part++)); mix(q->part); } show(' ');
    putchar(10);
}
static unsigned short from_us[] = { ((unsigned short) 0), ((unsigned short) 1), ((unsigned short) 9), ((unsigned short) 255), ((unsigned short) 256), ((unsigned short) 32767), ((unsigned short) 32768), ((unsigned short) 65535) };
static void step_us(void)
{
    int i;
    register unsigned short bank; unsigned short near; static unsigned short kept; unsigned short cells[3], *far = cells + 1;
    struct { unsigned short first, part; } z, *q = &z; char pad[260]; unsigned short beyond;
    for (i = 0; i < 8; i++) { bank = from_us[i]; mix(-bank); mix(~bank); mix(!bank); mix(+bank); mix(bank++); mix(bank); mix(++bank); mix(bank--); mix(bank); mix(--bank); mix(bank ? 3 : 4); if (!bank) mix(5); if (bank) mix(6); else mix(8); mix(sizeof bank + sizeof -bank); bank++; --bank; mix(-(bank++)); mix(bank); } show(' ');
    for (i = 0; i < 8; i++) { near = from_us[i]; mix(-near); mix(~near); mix(!near); mix(+near); mix(near++); mix(near); mix(++near); mix(near--); mix(near); mix(--near); mix(near ? 3 : 4); if (!near) mix(5); if (near) mix(6); else mix(8); mix(sizeof near + sizeof -near); near++; --near; mix(-(near++)); mix(near); } show(' ');
    for (i = 0; i < 8; i++) { kept = from_us[i]; mix(-kept); mix(~kept); mix(!kept); mix(+kept); mix(kept++); mix(kept); mix(++kept); mix(kept--); mix(kept); mix(--kept); mix(kept ? 3 : 4); if (!kept) mix(5); if (kept) mix(6); else mix(8); mix(sizeof kept + sizeof -kept); kept++; --kept; mix(-(kept++)); mix(kept); } show(' ');
    for (i = 0; i < 8; i++) { (*far) = from_us[i]; mix(-(*far)); mix(~(*far)); mix(!(*far)); mix(+(*far)); mix((*far)++); mix((*far)); mix(++(*far)); mix((*far)--); mix((*far)); mix(--(*far)); mix((*far) ? 3 : 4); if (!(*far)) mix(5); if ((*far)) mix(6); else mix(8); mix(sizeof (*far) + sizeof -(*far)); (*far)++; --(*far); mix(-((*far)++)); mix((*far)); } show(' ');
    for (i = 0; i < 8; i++) { beyond = from_us[i]; mix(-beyond); mix(~beyond); mix(!beyond); mix(+beyond); mix(beyond++); mix(beyond); mix(++beyond); mix(beyond--); mix(beyond); mix(--beyond); mix(beyond ? 3 : 4); if (!beyond) mix(5); if (beyond) mix(6); else mix(8); mix(sizeof beyond + sizeof -beyond); beyond++; --beyond; mix(-(beyond++)); mix(beyond); } show(' ');
    for (i = 0; i < 8; i++) { z.part = from_us[i]; mix(-z.part); mix(~z.part); mix(!z.part); mix(+z.part); mix(z.part++); mix(z.part); mix(++z.part); mix(z.part--); mix(z.part); mix(--z.part); mix(z.part ? 3 : 4); if (!z.part) mix(5); if (z.part) mix(6); else mix(8); mix(sizeof z.part + sizeof -z.part); z.part++; --z.part; mix(-(z.part++)); mix(z.part); } show(' ');
    for (i = 0; i < 8; i++) { q->part = from_us[i]; mix(-q->part); mix(~q->part); mix(!q->part); mix(+q->part); mix(q->part++); mix(q->part); mix(++q->part); mix(q->part--); mix(q->part); mix(--q->part); mix(q->part ? 3 : 4); if (!q->part) mix(5); if (q->part) mix(6); else mix(8); mix(sizeof q->part + sizeof -q->part); q->part++; --q->part; mix(-(q->part++)); mix(q->part); } show(' ');
    putchar(10);
}
int main(void)
{
    step_uc();
    step_sc();
    step_s();
    step_us();
    return 0;
}
