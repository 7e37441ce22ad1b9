int putchar(int c);
static unsigned long sum;
static void mix(unsigned long v) { sum = sum + sum + sum + v; }
static void hex(unsigned long n, int digits) { if (digits > 1) hex(n >> 4, digits - 1); putchar("0123456789abcdef"[n & 15]); }
static void show(int end) { hex(sum, 8); putchar(end); sum = 0; }
static unsigned short left[] = { ((unsigned short) 0), ((unsigned short) 1), ((unsigned short) 9), ((unsigned short) 255), ((unsigned short) 256), ((unsigned short) 32767), ((unsigned short) 32768), ((unsigned short) 65535) };
static unsigned short kept;
static void operator_0(void)
{
    int i; unsigned short near; register unsigned short bank;
    for (i = 0; i < 8; i++) {  mix(left[i] + (-128)); } mix(sizeof(left[i] + (-128))); show(' ');
    for (i = 0; i < 8; i++) {  mix(left[i] + 256); } mix(sizeof(left[i] + 256)); show(' ');
    for (i = 0; i < 8; i++) {  mix(left[i] + (-1)); } mix(sizeof(left[i] + (-1))); show(' ');
    for (i = 0; i < 8; i++) {  mix((-128) + left[i]); } mix(sizeof((-128) + left[i])); show(' ');
    for (i = 0; i < 8; i++) { near = left[i]; mix(near + 32768u); } mix(sizeof(near + 32768u)); show(' ');
    for (i = 0; i < 8; i++) { near = left[i]; mix(near + 1u); } mix(sizeof(near + 1u)); show(' ');
    for (i = 0; i < 8; i++) { near = left[i]; mix(near + 127u); } mix(sizeof(near + 127u)); show(' ');
    for (i = 0; i < 8; i++) { near = left[i]; mix(0u + near); } mix(sizeof(0u + near)); show(' ');
    for (i = 0; i < 8; i++) { bank = left[i]; mix(bank + 0L); } mix(sizeof(bank + 0L)); show(' ');
    for (i = 0; i < 8; i++) { bank = left[i]; mix(bank + (-32769L)); } mix(sizeof(bank + (-32769L))); show(' ');
    for (i = 0; i < 8; i++) { bank = left[i]; mix(bank + (-65537L)); } mix(sizeof(bank + (-65537L))); show(' ');
    for (i = 0; i < 8; i++) { bank = left[i]; mix(65535L + bank); } mix(sizeof(65535L + bank)); show(' ');
    for (i = 0; i < 8; i++) { kept = left[i]; mix(kept + 65535UL); } mix(sizeof(kept + 65535UL)); show(' ');
    for (i = 0; i < 8; i++) { kept = left[i]; mix(kept + 1UL); } mix(sizeof(kept + 1UL)); show(' ');
    for (i = 0; i < 8; i++) { kept = left[i]; mix(kept + 0UL); } mix(sizeof(kept + 0UL)); show(' ');
    for (i = 0; i < 8; i++) { kept = left[i]; mix(31UL + kept); } mix(sizeof(31UL + kept)); show(' ');
    putchar(10);
}
static void operator_1(void)
{
    int i; unsigned short near; register unsigned short bank;
    for (i = 0; i < 8; i++) { near = left[i]; mix(near - 15); } mix(sizeof(near - 15)); show(' ');
    for (i = 0; i < 8; i++) { near = left[i]; mix(near - 32767); } mix(sizeof(near - 32767)); show(' ');
    for (i = 0; i < 8; i++) { near = left[i]; mix(near - (-1)); } mix(sizeof(near - (-1))); show(' ');
    for (i = 0; i < 8; i++) { near = left[i]; mix((-1) - near); } mix(sizeof((-1) - near)); show(' ');
    for (i = 0; i < 8; i++) { bank = left[i]; mix(bank - 127u); } mix(sizeof(bank - 127u)); show(' ');
    for (i = 0; i < 8; i++) { bank = left[i]; mix(bank - 255u); } mix(sizeof(bank - 255u)); show(' ');
    for (i = 0; i < 8; i++) { bank = left[i]; mix(bank - 0u); } mix(sizeof(bank - 0u)); show(' ');
    for (i = 0; i < 8; i++) { bank = left[i]; mix(255u - bank); } mix(sizeof(255u - bank)); show(' ');
    for (i = 0; i < 8; i++) { kept = left[i]; mix(kept - 0L); } mix(sizeof(kept - 0L)); show(' ');
    for (i = 0; i < 8; i++) { kept = left[i]; mix(kept - (-1L)); } mix(sizeof(kept - (-1L))); show(' ');
    for (i = 0; i < 8; i++) { kept = left[i]; mix(kept - (-2147483647L - 1)); } mix(sizeof(kept - (-2147483647L - 1))); show(' ');
    for (i = 0; i < 8; i++) { kept = left[i]; mix(255L - kept); } mix(sizeof(255L - kept)); show(' ');
    for (i = 0; i < 8; i++) {  mix(left[i] - 65536UL); } mix(sizeof(left[i] - 65536UL)); show(' ');
    for (i = 0; i < 8; i++) {  mix(left[i] - 65535UL); } mix(sizeof(left[i] - 65535UL)); show(' ');
    for (i = 0; i < 8; i++) {  mix(left[i] - 0UL); } mix(sizeof(left[i] - 0UL)); show(' ');
    for (i = 0; i < 8; i++) {  mix(1UL - left[i]); } mix(sizeof(1UL - left[i])); show(' ');
    putchar(10);
}
static void operator_2(void)
{
    int i; unsigned short near; register unsigned short bank;
    for (i = 0; i < 8; i++) { bank = left[i]; mix(bank * (-257)); } mix(sizeof(bank * (-257))); show(' ');
    for (i = 0; i < 8; i++) { bank = left[i]; mix(0 * bank); } mix(sizeof(0 * bank)); show(' ');
    for (i = 0; i < 8; i++) { kept = left[i]; mix(kept * 40000u); } mix(sizeof(kept * 40000u)); show(' ');
    for (i = 0; i < 8; i++) { kept = left[i]; mix(16u * kept); } mix(sizeof(16u * kept)); show(' ');
    for (i = 0; i < 8; i++) {  mix(left[i] * 0L); } mix(sizeof(left[i] * 0L)); show(' ');
    for (i = 0; i < 8; i++) {  mix(1L * left[i]); } mix(sizeof(1L * left[i])); show(' ');
    for (i = 0; i < 8; i++) { near = left[i]; mix(near * 2147483647UL); } mix(sizeof(near * 2147483647UL)); show(' ');
    for (i = 0; i < 8; i++) { near = left[i]; mix(0UL * near); } mix(sizeof(0UL * near)); show(' ');
    putchar(10);
}
static void operator_3(void)
{
    int i; unsigned short near; register unsigned short bank;
    for (i = 0; i < 8; i++) { kept = left[i]; mix(kept / (-128)); } mix(sizeof(kept / (-128))); show(' ');
    for (i = 0; i < 8; i++) { kept = left[i]; if (kept == ((unsigned short) 1) || kept == ((unsigned short) 9) || kept == ((unsigned short) 255) || kept == ((unsigned short) 256) || kept == ((unsigned short) 32767) || kept == ((unsigned short) 32768) || kept == ((unsigned short) 65535)) mix((-1) / kept); } mix(sizeof((-1) / kept)); show(' ');
    for (i = 0; i < 8; i++) {  mix(left[i] / 16u); } mix(sizeof(left[i] / 16u)); show(' ');
    for (i = 0; i < 8; i++) {  if (left[i] == ((unsigned short) 1) || left[i] == ((unsigned short) 9) || left[i] == ((unsigned short) 255) || left[i] == ((unsigned short) 256) || left[i] == ((unsigned short) 32767) || left[i] == ((unsigned short) 32768) || left[i] == ((unsigned short) 65535)) mix(40000u / left[i]); } mix(sizeof(40000u / left[i])); show(' ');
    for (i = 0; i < 8; i++) { near = left[i]; mix(near / 1L); } mix(sizeof(near / 1L)); show(' ');
    for (i = 0; i < 8; i++) { near = left[i]; if (near == ((unsigned short) 1) || near == ((unsigned short) 9) || near == ((unsigned short) 255) || near == ((unsigned short) 256) || near == ((unsigned short) 32767) || near == ((unsigned short) 32768) || near == ((unsigned short) 65535)) mix(1L / near); } mix(sizeof(1L / near)); show(' ');
    for (i = 0; i < 8; i++) { bank = left[i]; mix(bank / 4294967295UL); } mix(sizeof(bank / 4294967295UL)); show(' ');
    for (i = 0; i < 8; i++) { bank = left[i]; if (bank == ((unsigned short) 1) || bank == ((unsigned short) 9) || bank == ((unsigned short) 255) || bank == ((unsigned short) 256) || bank == ((unsigned short) 32767) || bank == ((unsigned short) 32768) || bank == ((unsigned short) 65535)) mix(4294967295UL / bank); } mix(sizeof(4294967295UL / bank)); show(' ');
    putchar(10);
}
static void operator_4(void)
{
    int i; unsigned short near; register unsigned short bank;
    for (i = 0; i < 8; i++) {  mix(left[i] % 256); } mix(sizeof(left[i] % 256)); show(' ');
    for (i = 0; i < 8; i++) {  if (left[i] == ((unsigned short) 1) || left[i] == ((unsigned short) 9) || left[i] == ((unsigned short) 255) || left[i] == ((unsigned short) 256) || left[i] == ((unsigned short) 32767) || left[i] == ((unsigned short) 32768) || left[i] == ((unsigned short) 65535)) mix((-128) % left[i]); } mix(sizeof((-128) % left[i])); show(' ');
    for (i = 0; i < 8; i++) { near = left[i]; mix(near % 255u); } mix(sizeof(near % 255u)); show(' ');
    for (i = 0; i < 8; i++) { near = left[i]; if (near == ((unsigned short) 1) || near == ((unsigned short) 9) || near == ((unsigned short) 255) || near == ((unsigned short) 256) || near == ((unsigned short) 32767) || near == ((unsigned short) 32768) || near == ((unsigned short) 65535)) mix(16u % near); } mix(sizeof(16u % near)); show(' ');
    for (i = 0; i < 8; i++) { bank = left[i]; mix(bank % (-32769L)); } mix(sizeof(bank % (-32769L))); show(' ');
    for (i = 0; i < 8; i++) { bank = left[i]; if (bank == ((unsigned short) 1) || bank == ((unsigned short) 9) || bank == ((unsigned short) 255) || bank == ((unsigned short) 256) || bank == ((unsigned short) 32767) || bank == ((unsigned short) 32768) || bank == ((unsigned short) 65535)) mix((-1L) % bank); } mix(sizeof((-1L) % bank)); show(' ');
    for (i = 0; i < 8; i++) { kept = left[i]; mix(kept % 65536UL); } mix(sizeof(kept % 65536UL)); show(' ');
    for (i = 0; i < 8; i++) { kept = left[i]; if (kept == ((unsigned short) 1) || kept == ((unsigned short) 9) || kept == ((unsigned short) 255) || kept == ((unsigned short) 256) || kept == ((unsigned short) 32767) || kept == ((unsigned short) 32768) || kept == ((unsigned short) 65535)) mix(0UL % kept); } mix(sizeof(0UL % kept)); show(' ');
    putchar(10);
}
static void operator_5(void)
{
    int i; unsigned short near; register unsigned short bank;
    for (i = 0; i < 8; i++) { near = left[i]; mix(near << 0); } mix(sizeof(near << 0)); show(' ');
    for (i = 0; i < 8; i++) { near = left[i]; if (near == ((unsigned short) 0) || near == ((unsigned short) 1) || near == ((unsigned short) 9)) mix(0 << near); } mix(sizeof(0 << near)); show(' ');
    for (i = 0; i < 8; i++) { bank = left[i]; mix(bank << 9u); } mix(sizeof(bank << 9u)); show(' ');
    for (i = 0; i < 8; i++) { bank = left[i]; if (bank == ((unsigned short) 0) || bank == ((unsigned short) 1) || bank == ((unsigned short) 9)) mix(0u << bank); } mix(sizeof(0u << bank)); show(' ');
    for (i = 0; i < 8; i++) { kept = left[i]; mix(kept << 0L); } mix(sizeof(kept << 0L)); show(' ');
    for (i = 0; i < 8; i++) { kept = left[i]; if (kept == ((unsigned short) 0) || kept == ((unsigned short) 1) || kept == ((unsigned short) 9)) mix(0L << kept); } mix(sizeof(0L << kept)); show(' ');
    for (i = 0; i < 8; i++) {  mix(left[i] << 1UL); } mix(sizeof(left[i] << 1UL)); show(' ');
    for (i = 0; i < 8; i++) {  if (left[i] == ((unsigned short) 0) || left[i] == ((unsigned short) 1) || left[i] == ((unsigned short) 9)) mix(65536UL << left[i]); } mix(sizeof(65536UL << left[i])); show(' ');
    putchar(10);
}
static void operator_6(void)
{
    int i; unsigned short near; register unsigned short bank;
    for (i = 0; i < 8; i++) { bank = left[i]; mix(bank >> 0); } mix(sizeof(bank >> 0)); show(' ');
    for (i = 0; i < 8; i++) { bank = left[i]; if (bank == ((unsigned short) 0) || bank == ((unsigned short) 1) || bank == ((unsigned short) 9)) mix((-1) >> bank); } mix(sizeof((-1) >> bank)); show(' ');
    for (i = 0; i < 8; i++) { kept = left[i]; mix(kept >> 9u); } mix(sizeof(kept >> 9u)); show(' ');
    for (i = 0; i < 8; i++) { kept = left[i]; if (kept == ((unsigned short) 0) || kept == ((unsigned short) 1) || kept == ((unsigned short) 9)) mix(40000u >> kept); } mix(sizeof(40000u >> kept)); show(' ');
    for (i = 0; i < 8; i++) {  mix(left[i] >> 8L); } mix(sizeof(left[i] >> 8L)); show(' ');
    for (i = 0; i < 8; i++) {  if (left[i] == ((unsigned short) 0) || left[i] == ((unsigned short) 1) || left[i] == ((unsigned short) 9)) mix(1L >> left[i]); } mix(sizeof(1L >> left[i])); show(' ');
    for (i = 0; i < 8; i++) { near = left[i]; mix(near >> 2UL); } mix(sizeof(near >> 2UL)); show(' ');
    for (i = 0; i < 8; i++) { near = left[i]; if (near == ((unsigned short) 0) || near == ((unsigned short) 1) || near == ((unsigned short) 9)) mix(65536UL >> near); } mix(sizeof(65536UL >> near)); show(' ');
    putchar(10);
}
static void operator_7(void)
{
    int i; unsigned short near; register unsigned short bank;
    for (i = 0; i < 8; i++) { kept = left[i]; mix(kept & (-1)); } mix(sizeof(kept & (-1))); show(' ');
    for (i = 0; i < 8; i++) { kept = left[i]; mix(0 & kept); } mix(sizeof(0 & kept)); show(' ');
    for (i = 0; i < 8; i++) {  mix(left[i] & 0u); } mix(sizeof(left[i] & 0u)); show(' ');
    for (i = 0; i < 8; i++) {  mix(1u & left[i]); } mix(sizeof(1u & left[i])); show(' ');
    for (i = 0; i < 8; i++) { near = left[i]; mix(near & 65535L); } mix(sizeof(near & 65535L)); show(' ');
    for (i = 0; i < 8; i++) { near = left[i]; mix((-1L) & near); } mix(sizeof((-1L) & near)); show(' ');
    for (i = 0; i < 8; i++) { bank = left[i]; mix(bank & 65535UL); } mix(sizeof(bank & 65535UL)); show(' ');
    for (i = 0; i < 8; i++) { bank = left[i]; mix(0UL & bank); } mix(sizeof(0UL & bank)); show(' ');
    putchar(10);
}
static void operator_8(void)
{
    int i; unsigned short near; register unsigned short bank;
    for (i = 0; i < 8; i++) {  mix(left[i] | (-32767 - 1)); } mix(sizeof(left[i] | (-32767 - 1))); show(' ');
    for (i = 0; i < 8; i++) {  mix(0 | left[i]); } mix(sizeof(0 | left[i])); show(' ');
    for (i = 0; i < 8; i++) { near = left[i]; mix(near | 40000u); } mix(sizeof(near | 40000u)); show(' ');
    for (i = 0; i < 8; i++) { near = left[i]; mix(1u | near); } mix(sizeof(1u | near)); show(' ');
    for (i = 0; i < 8; i++) { bank = left[i]; mix(bank | (-1L)); } mix(sizeof(bank | (-1L))); show(' ');
    for (i = 0; i < 8; i++) { bank = left[i]; mix((-1L) | bank); } mix(sizeof((-1L) | bank)); show(' ');
    for (i = 0; i < 8; i++) { kept = left[i]; mix(kept | 4294967295UL); } mix(sizeof(kept | 4294967295UL)); show(' ');
    for (i = 0; i < 8; i++) { kept = left[i]; mix(31UL | kept); } mix(sizeof(31UL | kept)); show(' ');
    putchar(10);
}
static void operator_9(void)
{
    int i; unsigned short near; register unsigned short bank;
    for (i = 0; i < 8; i++) { near = left[i]; mix(near ^ 15); } mix(sizeof(near ^ 15)); show(' ');
    for (i = 0; i < 8; i++) { near = left[i]; mix(0 ^ near); } mix(sizeof(0 ^ near)); show(' ');
    for (i = 0; i < 8; i++) { bank = left[i]; mix(bank ^ 32768u); } mix(sizeof(bank ^ 32768u)); show(' ');
    for (i = 0; i < 8; i++) { bank = left[i]; mix(0u ^ bank); } mix(sizeof(0u ^ bank)); show(' ');
    for (i = 0; i < 8; i++) { kept = left[i]; mix(kept ^ 1L); } mix(sizeof(kept ^ 1L)); show(' ');
    for (i = 0; i < 8; i++) { kept = left[i]; mix(0L ^ kept); } mix(sizeof(0L ^ kept)); show(' ');
    for (i = 0; i < 8; i++) {  mix(left[i] ^ 4294967295UL); } mix(sizeof(left[i] ^ 4294967295UL)); show(' ');
    for (i = 0; i < 8; i++) {  mix(4294967295UL ^ left[i]); } mix(sizeof(4294967295UL ^ left[i])); show(' ');
    putchar(10);
}
static void operator_10(void)
{
    int i; unsigned short near; register unsigned short bank;
    for (i = 0; i < 8; i++) { bank = left[i]; mix(bank == 15); } mix(sizeof(bank == 15)); show(' ');
    for (i = 0; i < 8; i++) { bank = left[i]; mix(256 == bank); } mix(sizeof(256 == bank)); show(' ');
    for (i = 0; i < 8; i++) { kept = left[i]; mix(kept == 0u); } mix(sizeof(kept == 0u)); show(' ');
    for (i = 0; i < 8; i++) { kept = left[i]; mix(40000u == kept); } mix(sizeof(40000u == kept)); show(' ');
    for (i = 0; i < 8; i++) {  mix(left[i] == (-1L)); } mix(sizeof(left[i] == (-1L))); show(' ');
    for (i = 0; i < 8; i++) {  mix(1L == left[i]); } mix(sizeof(1L == left[i])); show(' ');
    for (i = 0; i < 8; i++) { near = left[i]; mix(near == 65536UL); } mix(sizeof(near == 65536UL)); show(' ');
    for (i = 0; i < 8; i++) { near = left[i]; mix(31UL == near); } mix(sizeof(31UL == near)); show(' ');
    putchar(10);
}
static void operator_11(void)
{
    int i; unsigned short near; register unsigned short bank;
    for (i = 0; i < 8; i++) { kept = left[i]; mix(kept != 256); } mix(sizeof(kept != 256)); show(' ');
    for (i = 0; i < 8; i++) { kept = left[i]; mix(32767 != kept); } mix(sizeof(32767 != kept)); show(' ');
    for (i = 0; i < 8; i++) {  mix(left[i] != 127u); } mix(sizeof(left[i] != 127u)); show(' ');
    for (i = 0; i < 8; i++) {  mix(40000u != left[i]); } mix(sizeof(40000u != left[i])); show(' ');
    for (i = 0; i < 8; i++) { near = left[i]; mix(near != (-2147483647L - 1)); } mix(sizeof(near != (-2147483647L - 1))); show(' ');
    for (i = 0; i < 8; i++) { near = left[i]; mix((-2147483647L - 1) != near); } mix(sizeof((-2147483647L - 1) != near)); show(' ');
    for (i = 0; i < 8; i++) { bank = left[i]; mix(bank != 65536UL); } mix(sizeof(bank != 65536UL)); show(' ');
    for (i = 0; i < 8; i++) { bank = left[i]; mix(2147483647UL != bank); } mix(sizeof(2147483647UL != bank)); show(' ');
    putchar(10);
}
static void operator_12(void)
{
    int i; unsigned short near; register unsigned short bank;
    for (i = 0; i < 8; i++) {  mix(left[i] < (-1)); } mix(sizeof(left[i] < (-1))); show(' ');
    for (i = 0; i < 8; i++) {  mix(32767 < left[i]); } mix(sizeof(32767 < left[i])); show(' ');
    for (i = 0; i < 8; i++) { near = left[i]; mix(near < 127u); } mix(sizeof(near < 127u)); show(' ');
    for (i = 0; i < 8; i++) { near = left[i]; mix(16u < near); } mix(sizeof(16u < near)); show(' ');
    for (i = 0; i < 8; i++) { bank = left[i]; mix(bank < 0L); } mix(sizeof(bank < 0L)); show(' ');
    for (i = 0; i < 8; i++) { bank = left[i]; mix((-65537L) < bank); } mix(sizeof((-65537L) < bank)); show(' ');
    for (i = 0; i < 8; i++) { kept = left[i]; mix(kept < 0UL); } mix(sizeof(kept < 0UL)); show(' ');
    for (i = 0; i < 8; i++) { kept = left[i]; mix(31UL < kept); } mix(sizeof(31UL < kept)); show(' ');
    putchar(10);
}
static void operator_13(void)
{
    int i; unsigned short near; register unsigned short bank;
    for (i = 0; i < 8; i++) { near = left[i]; mix(near > 32767); } mix(sizeof(near > 32767)); show(' ');
    for (i = 0; i < 8; i++) { near = left[i]; mix((-1) > near); } mix(sizeof((-1) > near)); show(' ');
    for (i = 0; i < 8; i++) { bank = left[i]; mix(bank > 1u); } mix(sizeof(bank > 1u)); show(' ');
    for (i = 0; i < 8; i++) { bank = left[i]; mix(255u > bank); } mix(sizeof(255u > bank)); show(' ');
    for (i = 0; i < 8; i++) { kept = left[i]; mix(kept > 1L); } mix(sizeof(kept > 1L)); show(' ');
    for (i = 0; i < 8; i++) { kept = left[i]; mix((-2147483647L - 1) > kept); } mix(sizeof((-2147483647L - 1) > kept)); show(' ');
    for (i = 0; i < 8; i++) {  mix(left[i] > 0UL); } mix(sizeof(left[i] > 0UL)); show(' ');
    for (i = 0; i < 8; i++) {  mix(31UL > left[i]); } mix(sizeof(31UL > left[i])); show(' ');
    putchar(10);
}
static void operator_14(void)
{
    int i; unsigned short near; register unsigned short bank;
    for (i = 0; i < 8; i++) { bank = left[i]; mix(bank <= (-1)); } mix(sizeof(bank <= (-1))); show(' ');
    for (i = 0; i < 8; i++) { bank = left[i]; mix(15 <= bank); } mix(sizeof(15 <= bank)); show(' ');
    for (i = 0; i < 8; i++) { kept = left[i]; mix(kept <= 127u); } mix(sizeof(kept <= 127u)); show(' ');
    for (i = 0; i < 8; i++) { kept = left[i]; mix(32768u <= kept); } mix(sizeof(32768u <= kept)); show(' ');
    for (i = 0; i < 8; i++) {  mix(left[i] <= (-32769L)); } mix(sizeof(left[i] <= (-32769L))); show(' ');
    for (i = 0; i < 8; i++) {  mix((-2147483647L - 1) <= left[i]); } mix(sizeof((-2147483647L - 1) <= left[i])); show(' ');
    for (i = 0; i < 8; i++) { near = left[i]; mix(near <= 65535UL); } mix(sizeof(near <= 65535UL)); show(' ');
    for (i = 0; i < 8; i++) { near = left[i]; mix(1UL <= near); } mix(sizeof(1UL <= near)); show(' ');
    putchar(10);
}
static void operator_15(void)
{
    int i; unsigned short near; register unsigned short bank;
    for (i = 0; i < 8; i++) { kept = left[i]; mix(kept >= 15); } mix(sizeof(kept >= 15)); show(' ');
    for (i = 0; i < 8; i++) { kept = left[i]; mix((-1) >= kept); } mix(sizeof((-1) >= kept)); show(' ');
    for (i = 0; i < 8; i++) {  mix(left[i] >= 32768u); } mix(sizeof(left[i] >= 32768u)); show(' ');
    for (i = 0; i < 8; i++) {  mix(65535u >= left[i]); } mix(sizeof(65535u >= left[i])); show(' ');
    for (i = 0; i < 8; i++) { near = left[i]; mix(near >= (-1L)); } mix(sizeof(near >= (-1L))); show(' ');
    for (i = 0; i < 8; i++) { near = left[i]; mix(2147483647L >= near); } mix(sizeof(2147483647L >= near)); show(' ');
    for (i = 0; i < 8; i++) { bank = left[i]; mix(bank >= 2147483648UL); } mix(sizeof(bank >= 2147483648UL)); show(' ');
    for (i = 0; i < 8; i++) { bank = left[i]; mix(1UL >= bank); } mix(sizeof(1UL >= bank)); show(' ');
    putchar(10);
}
int main(void)
{
    operator_0();
    operator_1();
    operator_2();
    operator_3();
    operator_4();
    operator_5();
    operator_6();
    operator_7();
    operator_8();
    operator_9();
    operator_10();
    operator_11();
    operator_12();
    operator_13();
    operator_14();
    operator_15();
    return 0;
}
