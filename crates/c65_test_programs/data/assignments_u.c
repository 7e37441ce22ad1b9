int putchar(int c);
static unsigned long sum;
static void mix(unsigned long v) { sum = sum + sum + sum + v; }
static void hex(unsigned long n, int digits) { if (digits > 1) hex(n >> 4, digits - 1); putchar("0123456789abcdef"[n & 15]); }
static void show(int end) { hex(sum, 8); putchar(end); sum = 0; }
static unsigned int left[] = { 0u, 1u, 16u, 127u, 255u, 32768u, 40000u, 65535u };
static unsigned char right_uc[] = { ((unsigned char) 0), ((unsigned char) 1), ((unsigned char) 2), ((unsigned char) 7), ((unsigned char) 127), ((unsigned char) 128), ((unsigned char) 200), ((unsigned char) 255) };
static unsigned char count_uc[] = { ((unsigned char) 0), ((unsigned char) 1), ((unsigned char) 2), ((unsigned char) 7), ((unsigned char) 8), ((unsigned char) 9), ((unsigned char) 15) };
static void with_uc(void)
{
    int i, j;
    register unsigned int bank; unsigned int near; static unsigned int kept; unsigned int cells[3], *far = cells + 1;
    struct { unsigned int first, part; } z, *q = &z; char pad[260]; unsigned int beyond;
    for (i = 0; i < 8; i++) for (j = i & 1; j < 8; j += 2) { bank = left[i]; mix(bank = right_uc[j]); mix(bank); } mix(sizeof(bank = 1)); show(' ');
    for (i = 0; i < 8; i++) for (j = i & 1; j < 8; j += 2) { near = left[i]; mix(near += right_uc[j]); mix(near); } mix(sizeof(near += 1)); show(' ');
    for (i = 0; i < 8; i++) for (j = i & 1; j < 8; j += 2) { kept = left[i]; mix(kept -= right_uc[j]); mix(kept); } mix(sizeof(kept -= 1)); show(' ');
    for (i = 0; i < 8; i++) for (j = i & 1; j < 8; j += 2) { (*far) = left[i]; mix((*far) *= right_uc[j]); mix((*far)); } mix(sizeof((*far) *= 1)); show(' ');
    for (i = 0; i < 8; i++) for (j = i & 1; j < 8; j += 2) if (right_uc[j]) { beyond = left[i]; mix(beyond /= right_uc[j]); mix(beyond); } mix(sizeof(beyond /= 1)); show(' ');
    for (i = 0; i < 8; i++) for (j = i & 1; j < 8; j += 2) if (right_uc[j]) { z.part = left[i]; mix(z.part %= right_uc[j]); mix(z.part); } mix(sizeof(z.part %= 1)); show(' ');
    for (i = 0; i < 8; i++) for (j = i & 1; j < 7; j += 2) { q->part = left[i]; mix(q->part <<= count_uc[j]); mix(q->part); } mix(sizeof(q->part <<= 1)); show(' ');
    for (i = 0; i < 8; i++) for (j = i & 1; j < 7; j += 2) { bank = left[i]; mix(bank >>= count_uc[j]); mix(bank); } mix(sizeof(bank >>= 1)); show(' ');
    for (i = 0; i < 8; i++) for (j = i & 1; j < 8; j += 2) { near = left[i]; mix(near &= right_uc[j]); mix(near); } mix(sizeof(near &= 1)); show(' ');
    for (i = 0; i < 8; i++) for (j = i & 1; j < 8; j += 2) { kept = left[i]; mix(kept |= right_uc[j]); mix(kept); } mix(sizeof(kept |= 1)); show(' ');
    for (i = 0; i < 8; i++) for (j = i & 1; j < 8; j += 2) { (*far) = left[i]; mix((*far) ^= right_uc[j]); mix((*far)); } mix(sizeof((*far) ^= 1)); show(' ');
    putchar(10);
}
static signed char right_sc[] = { ((signed char) -128), ((signed char) -127), ((signed char) -2), ((signed char) -1), ((signed char) 0), ((signed char) 1), ((signed char) 7), ((signed char) 127) };
static signed char count_sc[] = { ((signed char) 0), ((signed char) 1), ((signed char) 2), ((signed char) 7), ((signed char) 8), ((signed char) 9), ((signed char) 15) };
static void with_sc(void)
{
    int i, j;
    register unsigned int bank; unsigned int near; static unsigned int kept; unsigned int cells[3], *far = cells + 1;
    struct { unsigned int first, part; } z, *q = &z; char pad[260]; unsigned int beyond;
    for (i = 0; i < 8; i++) for (j = i & 1; j < 8; j += 2) { near = left[i]; mix(near = right_sc[j]); mix(near); } mix(sizeof(near = 1)); show(' ');
    for (i = 0; i < 8; i++) for (j = i & 1; j < 8; j += 2) { kept = left[i]; mix(kept += right_sc[j]); mix(kept); } mix(sizeof(kept += 1)); show(' ');
    for (i = 0; i < 8; i++) for (j = i & 1; j < 8; j += 2) { (*far) = left[i]; mix((*far) -= right_sc[j]); mix((*far)); } mix(sizeof((*far) -= 1)); show(' ');
    for (i = 0; i < 8; i++) for (j = i & 1; j < 8; j += 2) { beyond = left[i]; mix(beyond *= right_sc[j]); mix(beyond); } mix(sizeof(beyond *= 1)); show(' ');
    for (i = 0; i < 8; i++) for (j = i & 1; j < 8; j += 2) if (right_sc[j]) { z.part = left[i]; mix(z.part /= right_sc[j]); mix(z.part); } mix(sizeof(z.part /= 1)); show(' ');
    for (i = 0; i < 8; i++) for (j = i & 1; j < 8; j += 2) if (right_sc[j]) { q->part = left[i]; mix(q->part %= right_sc[j]); mix(q->part); } mix(sizeof(q->part %= 1)); show(' ');
    for (i = 0; i < 8; i++) for (j = i & 1; j < 7; j += 2) { bank = left[i]; mix(bank <<= count_sc[j]); mix(bank); } mix(sizeof(bank <<= 1)); show(' ');
    for (i = 0; i < 8; i++) for (j = i & 1; j < 7; j += 2) { near = left[i]; mix(near >>= count_sc[j]); mix(near); } mix(sizeof(near >>= 1)); show(' ');
    for (i = 0; i < 8; i++) for (j = i & 1; j < 8; j += 2) { kept = left[i]; mix(kept &= right_sc[j]); mix(kept); } mix(sizeof(kept &= 1)); show(' ');
    for (i = 0; i < 8; i++) for (j = i & 1; j < 8; j += 2) { (*far) = left[i]; mix((*far) |= right_sc[j]); mix((*far)); } mix(sizeof((*far) |= 1)); show(' ');
    for (i = 0; i < 8; i++) for (j = i & 1; j < 8; j += 2) { beyond = left[i]; mix(beyond ^= right_sc[j]); mix(beyond); } mix(sizeof(beyond ^= 1)); show(' ');
    putchar(10);
}
static short right_s[] = { ((short) -32768), ((short) -32767), ((short) -256), ((short) -1), ((short) 0), ((short) 3), ((short) 255), ((short) 32767) };
static short count_s[] = { ((short) 0), ((short) 1), ((short) 2), ((short) 7), ((short) 8), ((short) 9), ((short) 15) };
static void with_s(void)
{
    int i, j;
    register unsigned int bank; unsigned int near; static unsigned int kept; unsigned int cells[3], *far = cells + 1;
    struct { unsigned int first, part; } z, *q = &z; char pad[260]; unsigned int beyond;
    for (i = 0; i < 8; i++) for (j = i & 1; j < 8; j += 2) { kept = left[i]; mix(kept = right_s[j]); mix(kept); } mix(sizeof(kept = 1)); show(' ');
    for (i = 0; i < 8; i++) for (j = i & 1; j < 8; j += 2) { (*far) = left[i]; mix((*far) += right_s[j]); mix((*far)); } mix(sizeof((*far) += 1)); show(' ');
    for (i = 0; i < 8; i++) for (j = i & 1; j < 8; j += 2) { beyond = left[i]; mix(beyond -= right_s[j]); mix(beyond); } mix(sizeof(beyond -= 1)); show(' ');
    for (i = 0; i < 8; i++) for (j = i & 1; j < 8; j += 2) { z.part = left[i]; mix(z.part *= right_s[j]); mix(z.part); } mix(sizeof(z.part *= 1)); show(' ');
    for (i = 0; i < 8; i++) for (j = i & 1; j < 8; j += 2) if (right_s[j]) { q->part = left[i]; mix(q->part /= right_s[j]); mix(q->part); } mix(sizeof(q->part /= 1)); show(' ');
    for (i = 0; i < 8; i++) for (j = i & 1; j < 8; j += 2) if (right_s[j]) { bank = left[i]; mix(bank %= right_s[j]); mix(bank); } mix(sizeof(bank %= 1)); show(' ');
    for (i = 0; i < 8; i++) for (j = i & 1; j < 7; j += 2) { near = left[i]; mix(near <<= count_s[j]); mix(near); } mix(sizeof(near <<= 1)); show(' ');
    for (i = 0; i < 8; i++) for (j = i & 1; j < 7; j += 2) { kept = left[i]; mix(kept >>= count_s[j]); mix(kept); } mix(sizeof(kept >>= 1)); show(' ');
    for (i = 0; i < 8; i++) for (j = i & 1; j < 8; j += 2) { (*far) = left[i]; mix((*far) &= right_s[j]); mix((*far)); } mix(sizeof((*far) &= 1)); show(' ');
    for (i = 0; i < 8; i++) for (j = i & 1; j < 8; j += 2) { beyond = left[i]; mix(beyond |= right_s[j]); mix(beyond); } mix(sizeof(beyond |= 1)); show(' ');
    for (i = 0; i < 8; i++) for (j = i & 1; j < 8; j += 2) { z.part = left[i]; mix(z.part ^= right_s[j]); mix(z.part); } mix(sizeof(z.part ^= 1)); show(' ');
    putchar(10);
}
static unsigned short right_us[] = { ((unsigned short) 0), ((unsigned short) 1), ((unsigned short) 9), ((unsigned short) 255), ((unsigned short) 256), ((unsigned short) 32767), ((unsigned short) 32768), ((unsigned short) 65535) };
static unsigned short count_us[] = { ((unsigned short) 0), ((unsigned short) 1), ((unsigned short) 2), ((unsigned short) 7), ((unsigned short) 8), ((unsigned short) 9), ((unsigned short) 15) };
static void with_us(void)
{
    int i, j;
    register unsigned int bank; unsigned int near; static unsigned int kept; unsigned int cells[3], *far = cells + 1;
    struct { unsigned int first, part; } z, *q = &z; char pad[260]; unsigned int beyond;
    for (i = 0; i < 8; i++) for (j = i & 1; j < 8; j += 2) { (*far) = left[i]; mix((*far) = right_us[j]); mix((*far)); } mix(sizeof((*far) = 1)); show(' ');
    for (i = 0; i < 8; i++) for (j = i & 1; j < 8; j += 2) { beyond = left[i]; mix(beyond += right_us[j]); mix(beyond); } mix(sizeof(beyond += 1)); show(' ');
    for (i = 0; i < 8; i++) for (j = i & 1; j < 8; j += 2) { z.part = left[i]; mix(z.part -= right_us[j]); mix(z.part); } mix(sizeof(z.part -= 1)); show(' ');
    for (i = 0; i < 8; i++) for (j = i & 1; j < 8; j += 2) { q->part = left[i]; mix(q->part *= right_us[j]); mix(q->part); } mix(sizeof(q->part *= 1)); show(' ');
    for (i = 0; i < 8; i++) for (j = i & 1; j < 8; j += 2) if (right_us[j]) { bank = left[i]; mix(bank /= right_us[j]); mix(bank); } mix(sizeof(bank /= 1)); show(' ');
    for (i = 0; i < 8; i++) for (j = i & 1; j < 8; j += 2) if (right_us[j]) { near = left[i]; mix(near %= right_us[j]); mix(near); } mix(sizeof(near %= 1)); show(' ');
    for (i = 0; i < 8; i++) for (j = i & 1; j < 7; j += 2) { kept = left[i]; mix(kept <<= count_us[j]); mix(kept); } mix(sizeof(kept <<= 1)); show(' ');
    for (i = 0; i < 8; i++) for (j = i & 1; j < 7; j += 2) { (*far) = left[i]; mix((*far) >>= count_us[j]); mix((*far)); } mix(sizeof((*far) >>= 1)); show(' ');
    for (i = 0; i < 8; i++) for (j = i & 1; j < 8; j += 2) { beyond = left[i]; mix(beyond &= right_us[j]); mix(beyond); } mix(sizeof(beyond &= 1)); show(' ');
    for (i = 0; i < 8; i++) for (j = i & 1; j < 8; j += 2) { z.part = left[i]; mix(z.part |= right_us[j]); mix(z.part); } mix(sizeof(z.part |= 1)); show(' ');
    for (i = 0; i < 8; i++) for (j = i & 1; j < 8; j += 2) { q->part = left[i]; mix(q->part ^= right_us[j]); mix(q->part); } mix(sizeof(q->part ^= 1)); show(' ');
    putchar(10);
}
static int right_i[] = { (-32767 - 1), (-257), (-128), (-1), 0, 1, 15, 256, 32767 };
static int count_i[] = { 0, 1, 2, 7, 8, 9, 15 };
static void with_i(void)
{
    int i, j;
    register unsigned int bank; unsigned int near; static unsigned int kept; unsigned int cells[3], *far = cells + 1;
    struct { unsigned int first, part; } z, *q = &z; char pad[260]; unsigned int beyond;
    for (i = 0; i < 8; i++) for (j = i & 1; j < 9; j += 2) { beyond = left[i]; mix(beyond = right_i[j]); mix(beyond); } mix(sizeof(beyond = 1)); show(' ');
    for (i = 0; i < 8; i++) for (j = i & 1; j < 9; j += 2) { z.part = left[i]; mix(z.part += right_i[j]); mix(z.part); } mix(sizeof(z.part += 1)); show(' ');
    for (i = 0; i < 8; i++) for (j = i & 1; j < 9; j += 2) { q->part = left[i]; mix(q->part -= right_i[j]); mix(q->part); } mix(sizeof(q->part -= 1)); show(' ');
    for (i = 0; i < 8; i++) for (j = i & 1; j < 9; j += 2) { bank = left[i]; mix(bank *= right_i[j]); mix(bank); } mix(sizeof(bank *= 1)); show(' ');
    for (i = 0; i < 8; i++) for (j = i & 1; j < 9; j += 2) if (right_i[j]) { near = left[i]; mix(near /= right_i[j]); mix(near); } mix(sizeof(near /= 1)); show(' ');
    for (i = 0; i < 8; i++) for (j = i & 1; j < 9; j += 2) if (right_i[j]) { kept = left[i]; mix(kept %= right_i[j]); mix(kept); } mix(sizeof(kept %= 1)); show(' ');
    for (i = 0; i < 8; i++) for (j = i & 1; j < 7; j += 2) { (*far) = left[i]; mix((*far) <<= count_i[j]); mix((*far)); } mix(sizeof((*far) <<= 1)); show(' ');
    for (i = 0; i < 8; i++) for (j = i & 1; j < 7; j += 2) { beyond = left[i]; mix(beyond >>= count_i[j]); mix(beyond); } mix(sizeof(beyond >>= 1)); show(' ');
    for (i = 0; i < 8; i++) for (j = i & 1; j < 9; j += 2) { z.part = left[i]; mix(z.part &= right_i[j]); mix(z.part); } mix(sizeof(z.part &= 1)); show(' ');
    for (i = 0; i < 8; i++) for (j = i & 1; j < 9; j += 2) { q->part = left[i]; mix(q->part |= right_i[j]); mix(q->part); } mix(sizeof(q->part |= 1)); show(' ');
    for (i = 0; i < 8; i++) for (j = i & 1; j < 9; j += 2) { bank = left[i]; mix(bank ^= right_i[j]); mix(bank); } mix(sizeof(bank ^= 1)); show(' ');
    putchar(10);
}
static unsigned int right_u[] = { 0u, 1u, 16u, 127u, 255u, 32768u, 40000u, 65535u };
static unsigned int count_u[] = { 0u, 1u, 2u, 7u, 8u, 9u, 15u };
static void with_u(void)
{
    int i, j;
    register unsigned int bank; unsigned int near; static unsigned int kept; unsigned int cells[3], *far = cells + 1;
    struct { unsigned int first, part; } z, *q = &z; char pad[260]; unsigned int beyond;
    for (i = 0; i < 8; i++) for (j = i & 1; j < 8; j += 2) { z.part = left[i]; mix(z.part = right_u[j]); mix(z.part); } mix(sizeof(z.part = 1)); show(' ');
    for (i = 0; i < 8; i++) for (j = i & 1; j < 8; j += 2) { q->part = left[i]; mix(q->part += right_u[j]); mix(q->part); } mix(sizeof(q->part += 1)); show(' ');
    for (i = 0; i < 8; i++) for (j = i & 1; j < 8; j += 2) { bank = left[i]; mix(bank -= right_u[j]); mix(bank); } mix(sizeof(bank -= 1)); show(' ');
    for (i = 0; i < 8; i++) for (j = i & 1; j < 8; j += 2) { near = left[i]; mix(near *= right_u[j]); mix(near); } mix(sizeof(near *= 1)); show(' ');
    for (i = 0; i < 8; i++) for (j = i & 1; j < 8; j += 2) if (right_u[j]) { kept = left[i]; mix(kept /= right_u[j]); mix(kept); } mix(sizeof(kept /= 1)); show(' ');
    for (i = 0; i < 8; i++) for (j = i & 1; j < 8; j += 2) if (right_u[j]) { (*far) = left[i]; mix((*far) %= right_u[j]); mix((*far)); } mix(sizeof((*far) %= 1)); show(' ');
    for (i = 0; i < 8; i++) for (j = i & 1; j < 7; j += 2) { beyond = left[i]; mix(beyond <<= count_u[j]); mix(beyond); } mix(sizeof(beyond <<= 1)); show(' ');
    for (i = 0; i < 8; i++) for (j = i & 1; j < 7; j += 2) { z.part = left[i]; mix(z.part >>= count_u[j]); mix(z.part); } mix(sizeof(z.part >>= 1)); show(' ');
    for (i = 0; i < 8; i++) for (j = i & 1; j < 8; j += 2) { q->part = left[i]; mix(q->part &= right_u[j]); mix(q->part); } mix(sizeof(q->part &= 1)); show(' ');
    for (i = 0; i < 8; i++) for (j = i & 1; j < 8; j += 2) { bank = left[i]; mix(bank |= right_u[j]); mix(bank); } mix(sizeof(bank |= 1)); show(' ');
    for (i = 0; i < 8; i++) for (j = i & 1; j < 8; j += 2) { near = left[i]; mix(near ^= right_u[j]); mix(near); } mix(sizeof(near ^= 1)); show(' ');
    putchar(10);
}
static long right_l[] = { (-2147483647L - 1), (-65537L), (-32769L), (-1L), 0L, 1L, 255L, 65535L, 65536L, 2147483647L };
static long count_l[] = { 0L, 1L, 2L, 7L, 8L, 9L, 15L };
static void with_l(void)
{
    int i, j;
    register unsigned int bank; unsigned int near; static unsigned int kept; unsigned int cells[3], *far = cells + 1;
    struct { unsigned int first, part; } z, *q = &z; char pad[260]; unsigned int beyond;
    for (i = 0; i < 8; i++) for (j = i & 1; j < 10; j += 2) { q->part = left[i]; mix(q->part = right_l[j]); mix(q->part); } mix(sizeof(q->part = 1)); show(' ');
    for (i = 0; i < 8; i++) for (j = i & 1; j < 10; j += 2) { bank = left[i]; mix(bank += right_l[j]); mix(bank); } mix(sizeof(bank += 1)); show(' ');
    for (i = 0; i < 8; i++) for (j = i & 1; j < 10; j += 2) { near = left[i]; mix(near -= right_l[j]); mix(near); } mix(sizeof(near -= 1)); show(' ');
    for (i = 0; i < 8; i++) for (j = i & 1; j < 10; j += 2) { kept = left[i]; mix(kept *= right_l[j]); mix(kept); } mix(sizeof(kept *= 1)); show(' ');
    for (i = 0; i < 8; i++) for (j = i & 1; j < 10; j += 2) if (right_l[j]) { (*far) = left[i]; mix((*far) /= right_l[j]); mix((*far)); } mix(sizeof((*far) /= 1)); show(' ');
    for (i = 0; i < 8; i++) for (j = i & 1; j < 10; j += 2) if (right_l[j]) { beyond = left[i]; mix(beyond %= right_l[j]); mix(beyond); } mix(sizeof(beyond %= 1)); show(' ');
    for (i = 0; i < 8; i++) for (j = i & 1; j < 7; j += 2) { z.part = left[i]; mix(z.part <<= count_l[j]); mix(z.part); } mix(sizeof(z.part <<= 1)); show(' ');
    for (i = 0; i < 8; i++) for (j = i & 1; j < 7; j += 2) { q->part = left[i]; mix(q->part >>= count_l[j]); mix(q->part); } mix(sizeof(q->part >>= 1)); show(' ');
    for (i = 0; i < 8; i++) for (j = i & 1; j < 10; j += 2) { bank = left[i]; mix(bank &= right_l[j]); mix(bank); } mix(sizeof(bank &= 1)); show(' ');
    for (i = 0; i < 8; i++) for (j = i & 1; j < 10; j += 2) { near = left[i]; mix(near |= right_l[j]); mix(near); } mix(sizeof(near |= 1)); show(' ');
    for (i = 0; i < 8; i++) for (j = i & 1; j < 10; j += 2) { kept = left[i]; mix(kept ^= right_l[j]); mix(kept); } mix(sizeof(kept ^= 1)); show(' ');
    putchar(10);
}
static unsigned long right_ul[] = { 0UL, 1UL, 31UL, 65535UL, 65536UL, 2147483647UL, 2147483648UL, 4294967295UL };
static unsigned long count_ul[] = { 0UL, 1UL, 2UL, 7UL, 8UL, 9UL, 15UL };
static void with_ul(void)
{
    int i, j;
    register unsigned int bank; unsigned int near; static unsigned int kept; unsigned int cells[3], *far = cells + 1;
    struct { unsigned int first, part; } z, *q = &z; char pad[260]; unsigned int beyond;
    for (i = 0; i < 8; i++) for (j = i & 1; j < 8; j += 2) { bank = left[i]; mix(bank = right_ul[j]); mix(bank); } mix(sizeof(bank = 1)); show(' ');
    for (i = 0; i < 8; i++) for (j = i & 1; j < 8; j += 2) { near = left[i]; mix(near += right_ul[j]); mix(near); } mix(sizeof(near += 1)); show(' ');
    for (i = 0; i < 8; i++) for (j = i & 1; j < 8; j += 2) { kept = left[i]; mix(kept -= right_ul[j]); mix(kept); } mix(sizeof(kept -= 1)); show(' ');
    for (i = 0; i < 8; i++) for (j = i & 1; j < 8; j += 2) { (*far) = left[i]; mix((*far) *= right_ul[j]); mix((*far)); } mix(sizeof((*far) *= 1)); show(' ');
    for (i = 0; i < 8; i++) for (j = i & 1; j < 8; j += 2) if (right_ul[j]) { beyond = left[i]; mix(beyond /= right_ul[j]); mix(beyond); } mix(sizeof(beyond /= 1)); show(' ');
    for (i = 0; i < 8; i++) for (j = i & 1; j < 8; j += 2) if (right_ul[j]) { z.part = left[i]; mix(z.part %= right_ul[j]); mix(z.part); } mix(sizeof(z.part %= 1)); show(' ');
    for (i = 0; i < 8; i++) for (j = i & 1; j < 7; j += 2) { q->part = left[i]; mix(q->part <<= count_ul[j]); mix(q->part); } mix(sizeof(q->part <<= 1)); show(' ');
    for (i = 0; i < 8; i++) for (j = i & 1; j < 7; j += 2) { bank = left[i]; mix(bank >>= count_ul[j]); mix(bank); } mix(sizeof(bank >>= 1)); show(' ');
    for (i = 0; i < 8; i++) for (j = i & 1; j < 8; j += 2) { near = left[i]; mix(near &= right_ul[j]); mix(near); } mix(sizeof(near &= 1)); show(' ');
    for (i = 0; i < 8; i++) for (j = i & 1; j < 8; j += 2) { kept = left[i]; mix(kept |= right_ul[j]); mix(kept); } mix(sizeof(kept |= 1)); show(' ');
    for (i = 0; i < 8; i++) for (j = i & 1; j < 8; j += 2) { (*far) = left[i]; mix((*far) ^= right_ul[j]); mix((*far)); } mix(sizeof((*far) ^= 1)); show(' ');
    putchar(10);
}
int main(void)
{
    with_uc();
    with_sc();
    with_s();
    with_us();
    with_i();
    with_u();
    with_l();
    with_ul();
    return 0;
}
