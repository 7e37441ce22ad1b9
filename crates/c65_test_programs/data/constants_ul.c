int putchar(int c);
static unsigned long sum;
static void mix(unsigned long v) { sum = sum + sum + sum + v; }
static void hex(unsigned long n, int digits) { if (digits > 1) hex(n >> 4, digits - 1); putchar("0123456789abcdef"[n & 15]); }
static void show(int end) { hex(sum, 8); putchar(end); sum = 0; }
static unsigned long left[] = { 0UL, 1UL, 31UL, 65535UL, 65536UL, 2147483647UL, 2147483648UL, 4294967295UL };
static unsigned long kept;
static void operator_0(void)
{
    int i; unsigned long near; register unsigned long bank;
    for (i = 0; i < 8; i++) {  mix(left[i] + (-1)); } mix(sizeof(left[i] + (-1))); show(' ');
    for (i = 0; i < 8; i++) {  mix(left[i] + (-128)); } mix(sizeof(left[i] + (-128))); show(' ');
    for (i = 0; i < 8; i++) {  mix(left[i] + (-257)); } mix(sizeof(left[i] + (-257))); show(' ');
    for (i = 0; i < 8; i++) {  mix((-128) + left[i]); } mix(sizeof((-128) + left[i])); show(' ');
    for (i = 0; i < 8; i++) { near = left[i]; mix(near + 32768u); } mix(sizeof(near + 32768u)); show(' ');
    for (i = 0; i < 8; i++) { near = left[i]; mix(near + 0u); } mix(sizeof(near + 0u)); show(' ');
    for (i = 0; i < 8; i++) { near = left[i]; mix(near + 40000u); } mix(sizeof(near + 40000u)); show(' ');
    for (i = 0; i < 8; i++) { near = left[i]; mix(255u + near); } mix(sizeof(255u + near)); show(' ');
    for (i = 0; i < 8; i++) { bank = left[i]; mix(bank + 65536L); } mix(sizeof(bank + 65536L)); show(' ');
    for (i = 0; i < 8; i++) { bank = left[i]; mix(bank + (-65537L)); } mix(sizeof(bank + (-65537L))); show(' ');
    for (i = 0; i < 8; i++) { bank = left[i]; mix(bank + (-32769L)); } mix(sizeof(bank + (-32769L))); show(' ');
    for (i = 0; i < 8; i++) { bank = left[i]; mix(0L + bank); } mix(sizeof(0L + bank)); show(' ');
    for (i = 0; i < 8; i++) { kept = left[i]; mix(kept + 4294967295UL); } mix(sizeof(kept + 4294967295UL)); show(' ');
    for (i = 0; i < 8; i++) { kept = left[i]; mix(kept + 65536UL); } mix(sizeof(kept + 65536UL)); show(' ');
    for (i = 0; i < 8; i++) { kept = left[i]; mix(kept + 31UL); } mix(sizeof(kept + 31UL)); show(' ');
    for (i = 0; i < 8; i++) { kept = left[i]; mix(1UL + kept); } mix(sizeof(1UL + kept)); show(' ');
    putchar(10);
}
static void operator_1(void)
{
    int i; unsigned long near; register unsigned long bank;
    for (i = 0; i < 8; i++) { near = left[i]; mix(near - 0); } mix(sizeof(near - 0)); show(' ');
    for (i = 0; i < 8; i++) { near = left[i]; mix(near - 1); } mix(sizeof(near - 1)); show(' ');
    for (i = 0; i < 8; i++) { near = left[i]; mix(near - (-128)); } mix(sizeof(near - (-128))); show(' ');
    for (i = 0; i < 8; i++) { near = left[i]; mix((-257) - near); } mix(sizeof((-257) - near)); show(' ');
    for (i = 0; i < 8; i++) { bank = left[i]; mix(bank - 1u); } mix(sizeof(bank - 1u)); show(' ');
    for (i = 0; i < 8; i++) { bank = left[i]; mix(bank - 0u); } mix(sizeof(bank - 0u)); show(' ');
    for (i = 0; i < 8; i++) { bank = left[i]; mix(bank - 40000u); } mix(sizeof(bank - 40000u)); show(' ');
    for (i = 0; i < 8; i++) { bank = left[i]; mix(127u - bank); } mix(sizeof(127u - bank)); show(' ');
    for (i = 0; i < 8; i++) { kept = left[i]; mix(kept - 2147483647L); } mix(sizeof(kept - 2147483647L)); show(' ');
    for (i = 0; i < 8; i++) { kept = left[i]; mix(kept - (-1L)); } mix(sizeof(kept - (-1L))); show(' ');
    for (i = 0; i < 8; i++) { kept = left[i]; mix(kept - 1L); } mix(sizeof(kept - 1L)); show(' ');
    for (i = 0; i < 8; i++) { kept = left[i]; mix((-2147483647L - 1) - kept); } mix(sizeof((-2147483647L - 1) - kept)); show(' ');
    for (i = 0; i < 8; i++) {  mix(left[i] - 0UL); } mix(sizeof(left[i] - 0UL)); show(' ');
    for (i = 0; i < 8; i++) {  mix(left[i] - 65535UL); } mix(sizeof(left[i] - 65535UL)); show(' ');
    for (i = 0; i < 8; i++) {  mix(left[i] - 2147483647UL); } mix(sizeof(left[i] - 2147483647UL)); show(' ');
    for (i = 0; i < 8; i++) {  mix(2147483647UL - left[i]); } mix(sizeof(2147483647UL - left[i])); show(' ');
    putchar(10);
}
static void operator_2(void)
{
    int i; unsigned long near; register unsigned long bank;
    for (i = 0; i < 8; i++) { bank = left[i]; mix(bank * (-128)); } mix(sizeof(bank * (-128))); show(' ');
    for (i = 0; i < 8; i++) { bank = left[i]; mix((-32767 - 1) * bank); } mix(sizeof((-32767 - 1) * bank)); show(' ');
    for (i = 0; i < 8; i++) { kept = left[i]; mix(kept * 32768u); } mix(sizeof(kept * 32768u)); show(' ');
    for (i = 0; i < 8; i++) { kept = left[i]; mix(127u * kept); } mix(sizeof(127u * kept)); show(' ');
    for (i = 0; i < 8; i++) {  mix(left[i] * 65536L); } mix(sizeof(left[i] * 65536L)); show(' ');
    for (i = 0; i < 8; i++) {  mix(0L * left[i]); } mix(sizeof(0L * left[i])); show(' ');
    for (i = 0; i < 8; i++) { near = left[i]; mix(near * 4294967295UL); } mix(sizeof(near * 4294967295UL)); show(' ');
    for (i = 0; i < 8; i++) { near = left[i]; mix(31UL * near); } mix(sizeof(31UL * near)); show(' ');
    putchar(10);
}
static void operator_3(void)
{
    int i; unsigned long near; register unsigned long bank;
    for (i = 0; i < 8; i++) { kept = left[i]; mix(kept / 1); } mix(sizeof(kept / 1)); show(' ');
    for (i = 0; i < 8; i++) { kept = left[i]; if (kept == 1UL || kept == 31UL || kept == 65535UL || kept == 65536UL || kept == 2147483647UL || kept == 2147483648UL || kept == 4294967295UL) mix((-32767 - 1) / kept); } mix(sizeof((-32767 - 1) / kept)); show(' ');
    for (i = 0; i < 8; i++) {  mix(left[i] / 32768u); } mix(sizeof(left[i] / 32768u)); show(' ');
    for (i = 0; i < 8; i++) {  if (left[i] == 1UL || left[i] == 31UL || left[i] == 65535UL || left[i] == 65536UL || left[i] == 2147483647UL || left[i] == 2147483648UL || left[i] == 4294967295UL) mix(1u / left[i]); } mix(sizeof(1u / left[i])); show(' ');
    for (i = 0; i < 8; i++) { near = left[i]; mix(near / 255L); } mix(sizeof(near / 255L)); show(' ');
    for (i = 0; i < 8; i++) { near = left[i]; if (near == 1UL || near == 31UL || near == 65535UL || near == 65536UL || near == 2147483647UL || near == 2147483648UL || near == 4294967295UL) mix(255L / near); } mix(sizeof(255L / near)); show(' ');
    for (i = 0; i < 8; i++) { bank = left[i]; mix(bank / 31UL); } mix(sizeof(bank / 31UL)); show(' ');
    for (i = 0; i < 8; i++) { bank = left[i]; if (bank == 1UL || bank == 31UL || bank == 65535UL || bank == 65536UL || bank == 2147483647UL || bank == 2147483648UL || bank == 4294967295UL) mix(2147483647UL / bank); } mix(sizeof(2147483647UL / bank)); show(' ');
    putchar(10);
}
static void operator_4(void)
{
    int i; unsigned long near; register unsigned long bank;
    for (i = 0; i < 8; i++) {  mix(left[i] % 256); } mix(sizeof(left[i] % 256)); show(' ');
    for (i = 0; i < 8; i++) {  if (left[i] == 1UL || left[i] == 31UL || left[i] == 65535UL || left[i] == 65536UL || left[i] == 2147483647UL || left[i] == 2147483648UL || left[i] == 4294967295UL) mix((-32767 - 1) % left[i]); } mix(sizeof((-32767 - 1) % left[i])); show(' ');
    for (i = 0; i < 8; i++) { near = left[i]; mix(near % 65535u); } mix(sizeof(near % 65535u)); show(' ');
    for (i = 0; i < 8; i++) { near = left[i]; if (near == 1UL || near == 31UL || near == 65535UL || near == 65536UL || near == 2147483647UL || near == 2147483648UL || near == 4294967295UL) mix(65535u % near); } mix(sizeof(65535u % near)); show(' ');
    for (i = 0; i < 8; i++) { bank = left[i]; mix(bank % 2147483647L); } mix(sizeof(bank % 2147483647L)); show(' ');
    for (i = 0; i < 8; i++) { bank = left[i]; if (bank == 1UL || bank == 31UL || bank == 65535UL || bank == 65536UL || bank == 2147483647UL || bank == 2147483648UL || bank == 4294967295UL) mix(65535L % bank); } mix(sizeof(65535L % bank)); show(' ');
    for (i = 0; i < 8; i++) { kept = left[i]; mix(kept % 65535UL); } mix(sizeof(kept % 65535UL)); show(' ');
    for (i = 0; i < 8; i++) { kept = left[i]; if (kept == 1UL || kept == 31UL || kept == 65535UL || kept == 65536UL || kept == 2147483647UL || kept == 2147483648UL || kept == 4294967295UL) mix(2147483647UL % kept); } mix(sizeof(2147483647UL % kept)); show(' ');
    putchar(10);
}
static void operator_5(void)
{
    int i; unsigned long near; register unsigned long bank;
    for (i = 0; i < 8; i++) { near = left[i]; mix(near << 1); } mix(sizeof(near << 1)); show(' ');
    for (i = 0; i < 8; i++) { near = left[i]; if (near == 0UL || near == 1UL) mix(1 << near); } mix(sizeof(1 << near)); show(' ');
    for (i = 0; i < 8; i++) { bank = left[i]; mix(bank << 7u); } mix(sizeof(bank << 7u)); show(' ');
    for (i = 0; i < 8; i++) { bank = left[i]; if (bank == 0UL || bank == 1UL) mix(32768u << bank); } mix(sizeof(32768u << bank)); show(' ');
    for (i = 0; i < 8; i++) { kept = left[i]; mix(kept << 8L); } mix(sizeof(kept << 8L)); show(' ');
    for (i = 0; i < 8; i++) { kept = left[i]; if (kept == 0UL || kept == 1UL || kept == 31UL) mix(1L << kept); } mix(sizeof(1L << kept)); show(' ');
    for (i = 0; i < 8; i++) {  mix(left[i] << 15UL); } mix(sizeof(left[i] << 15UL)); show(' ');
    for (i = 0; i < 8; i++) {  if (left[i] == 0UL || left[i] == 1UL || left[i] == 31UL) mix(65536UL << left[i]); } mix(sizeof(65536UL << left[i])); show(' ');
    putchar(10);
}
static void operator_6(void)
{
    int i; unsigned long near; register unsigned long bank;
    for (i = 0; i < 8; i++) { bank = left[i]; mix(bank >> 17); } mix(sizeof(bank >> 17)); show(' ');
    for (i = 0; i < 8; i++) { bank = left[i]; if (bank == 0UL || bank == 1UL) mix(32767 >> bank); } mix(sizeof(32767 >> bank)); show(' ');
    for (i = 0; i < 8; i++) { kept = left[i]; mix(kept >> 0u); } mix(sizeof(kept >> 0u)); show(' ');
    for (i = 0; i < 8; i++) { kept = left[i]; if (kept == 0UL || kept == 1UL) mix(127u >> kept); } mix(sizeof(127u >> kept)); show(' ');
    for (i = 0; i < 8; i++) {  mix(left[i] >> 17L); } mix(sizeof(left[i] >> 17L)); show(' ');
    for (i = 0; i < 8; i++) {  if (left[i] == 0UL || left[i] == 1UL || left[i] == 31UL) mix(255L >> left[i]); } mix(sizeof(255L >> left[i])); show(' ');
    for (i = 0; i < 8; i++) { near = left[i]; mix(near >> 7UL); } mix(sizeof(near >> 7UL)); show(' ');
    for (i = 0; i < 8; i++) { near = left[i]; if (near == 0UL || near == 1UL || near == 31UL) mix(31UL >> near); } mix(sizeof(31UL >> near)); show(' ');
    putchar(10);
}
static void operator_7(void)
{
    int i; unsigned long near; register unsigned long bank;
    for (i = 0; i < 8; i++) { kept = left[i]; mix(kept & (-32767 - 1)); } mix(sizeof(kept & (-32767 - 1))); show(' ');
    for (i = 0; i < 8; i++) { kept = left[i]; mix((-128) & kept); } mix(sizeof((-128) & kept)); show(' ');
    for (i = 0; i < 8; i++) {  mix(left[i] & 255u); } mix(sizeof(left[i] & 255u)); show(' ');
    for (i = 0; i < 8; i++) {  mix(1u & left[i]); } mix(sizeof(1u & left[i])); show(' ');
    for (i = 0; i < 8; i++) { near = left[i]; mix(near & 255L); } mix(sizeof(near & 255L)); show(' ');
    for (i = 0; i < 8; i++) { near = left[i]; mix((-1L) & near); } mix(sizeof((-1L) & near)); show(' ');
    for (i = 0; i < 8; i++) { bank = left[i]; mix(bank & 0UL); } mix(sizeof(bank & 0UL)); show(' ');
    for (i = 0; i < 8; i++) { bank = left[i]; mix(31UL & bank); } mix(sizeof(31UL & bank)); show(' ');
    putchar(10);
}
static void operator_8(void)
{
    int i; unsigned long near; register unsigned long bank;
    for (i = 0; i < 8; i++) {  mix(left[i] | 32767); } mix(sizeof(left[i] | 32767)); show(' ');
    for (i = 0; i < 8; i++) {  mix(1 | left[i]); } mix(sizeof(1 | left[i])); show(' ');
    for (i = 0; i < 8; i++) { near = left[i]; mix(near | 65535u); } mix(sizeof(near | 65535u)); show(' ');
    for (i = 0; i < 8; i++) { near = left[i]; mix(65535u | near); } mix(sizeof(65535u | near)); show(' ');
    for (i = 0; i < 8; i++) { bank = left[i]; mix(bank | (-2147483647L - 1)); } mix(sizeof(bank | (-2147483647L - 1))); show(' ');
    for (i = 0; i < 8; i++) { bank = left[i]; mix((-65537L) | bank); } mix(sizeof((-65537L) | bank)); show(' ');
    for (i = 0; i < 8; i++) { kept = left[i]; mix(kept | 31UL); } mix(sizeof(kept | 31UL)); show(' ');
    for (i = 0; i < 8; i++) { kept = left[i]; mix(2147483648UL | kept); } mix(sizeof(2147483648UL | kept)); show(' ');
    putchar(10);
}
static void operator_9(void)
{
    int i; unsigned long near; register unsigned long bank;
    for (i = 0; i < 8; i++) { near = left[i]; mix(near ^ (-257)); } mix(sizeof(near ^ (-257))); show(' ');
    for (i = 0; i < 8; i++) { near = left[i]; mix((-257) ^ near); } mix(sizeof((-257) ^ near)); show(' ');
    for (i = 0; i < 8; i++) { bank = left[i]; mix(bank ^ 255u); } mix(sizeof(bank ^ 255u)); show(' ');
    for (i = 0; i < 8; i++) { bank = left[i]; mix(1u ^ bank); } mix(sizeof(1u ^ bank)); show(' ');
    for (i = 0; i < 8; i++) { kept = left[i]; mix(kept ^ 2147483647L); } mix(sizeof(kept ^ 2147483647L)); show(' ');
    for (i = 0; i < 8; i++) { kept = left[i]; mix(65536L ^ kept); } mix(sizeof(65536L ^ kept)); show(' ');
    for (i = 0; i < 8; i++) {  mix(left[i] ^ 65535UL); } mix(sizeof(left[i] ^ 65535UL)); show(' ');
    for (i = 0; i < 8; i++) {  mix(1UL ^ left[i]); } mix(sizeof(1UL ^ left[i])); show(' ');
    putchar(10);
}
static void operator_10(void)
{
    int i; unsigned long near; register unsigned long bank;
    for (i = 0; i < 8; i++) { bank = left[i]; mix(bank == (-32767 - 1)); } mix(sizeof(bank == (-32767 - 1))); show(' ');
    for (i = 0; i < 8; i++) { bank = left[i]; mix((-1) == bank); } mix(sizeof((-1) == bank)); show(' ');
    for (i = 0; i < 8; i++) { kept = left[i]; mix(kept == 127u); } mix(sizeof(kept == 127u)); show(' ');
    for (i = 0; i < 8; i++) { kept = left[i]; mix(32768u == kept); } mix(sizeof(32768u == kept)); show(' ');
    for (i = 0; i < 8; i++) {  mix(left[i] == (-1L)); } mix(sizeof(left[i] == (-1L))); show(' ');
    for (i = 0; i < 8; i++) {  mix(255L == left[i]); } mix(sizeof(255L == left[i])); show(' ');
    for (i = 0; i < 8; i++) { near = left[i]; mix(near == 2147483647UL); } mix(sizeof(near == 2147483647UL)); show(' ');
    for (i = 0; i < 8; i++) { near = left[i]; mix(31UL == near); } mix(sizeof(31UL == near)); show(' ');
    putchar(10);
}
static void operator_11(void)
{
    int i; unsigned long near; register unsigned long bank;
    for (i = 0; i < 8; i++) { kept = left[i]; mix(kept != (-128)); } mix(sizeof(kept != (-128))); show(' ');
    for (i = 0; i < 8; i++) { kept = left[i]; mix(32767 != kept); } mix(sizeof(32767 != kept)); show(' ');
    for (i = 0; i < 8; i++) {  mix(left[i] != 1u); } mix(sizeof(left[i] != 1u)); show(' ');
    for (i = 0; i < 8; i++) {  mix(65535u != left[i]); } mix(sizeof(65535u != left[i])); show(' ');
    for (i = 0; i < 8; i++) { near = left[i]; mix(near != 65536L); } mix(sizeof(near != 65536L)); show(' ');
    for (i = 0; i < 8; i++) { near = left[i]; mix(1L != near); } mix(sizeof(1L != near)); show(' ');
    for (i = 0; i < 8; i++) { bank = left[i]; mix(bank != 2147483648UL); } mix(sizeof(bank != 2147483648UL)); show(' ');
    for (i = 0; i < 8; i++) { bank = left[i]; mix(4294967295UL != bank); } mix(sizeof(4294967295UL != bank)); show(' ');
    putchar(10);
}
static void operator_12(void)
{
    int i; unsigned long near; register unsigned long bank;
    for (i = 0; i < 8; i++) {  mix(left[i] < (-128)); } mix(sizeof(left[i] < (-128))); show(' ');
    for (i = 0; i < 8; i++) {  mix((-32767 - 1) < left[i]); } mix(sizeof((-32767 - 1) < left[i])); show(' ');
    for (i = 0; i < 8; i++) { near = left[i]; mix(near < 1u); } mix(sizeof(near < 1u)); show(' ');
    for (i = 0; i < 8; i++) { near = left[i]; mix(1u < near); } mix(sizeof(1u < near)); show(' ');
    for (i = 0; i < 8; i++) { bank = left[i]; mix(bank < 1L); } mix(sizeof(bank < 1L)); show(' ');
    for (i = 0; i < 8; i++) { bank = left[i]; mix(255L < bank); } mix(sizeof(255L < bank)); show(' ');
    for (i = 0; i < 8; i++) { kept = left[i]; mix(kept < 65536UL); } mix(sizeof(kept < 65536UL)); show(' ');
    for (i = 0; i < 8; i++) { kept = left[i]; mix(2147483647UL < kept); } mix(sizeof(2147483647UL < kept)); show(' ');
    putchar(10);
}
static void operator_13(void)
{
    int i; unsigned long near; register unsigned long bank;
    for (i = 0; i < 8; i++) { near = left[i]; mix(near > (-257)); } mix(sizeof(near > (-257))); show(' ');
    for (i = 0; i < 8; i++) { near = left[i]; mix((-128) > near); } mix(sizeof((-128) > near)); show(' ');
    for (i = 0; i < 8; i++) { bank = left[i]; mix(bank > 65535u); } mix(sizeof(bank > 65535u)); show(' ');
    for (i = 0; i < 8; i++) { bank = left[i]; mix(1u > bank); } mix(sizeof(1u > bank)); show(' ');
    for (i = 0; i < 8; i++) { kept = left[i]; mix(kept > 255L); } mix(sizeof(kept > 255L)); show(' ');
    for (i = 0; i < 8; i++) { kept = left[i]; mix(1L > kept); } mix(sizeof(1L > kept)); show(' ');
    for (i = 0; i < 8; i++) {  mix(left[i] > 2147483647UL); } mix(sizeof(left[i] > 2147483647UL)); show(' ');
    for (i = 0; i < 8; i++) {  mix(4294967295UL > left[i]); } mix(sizeof(4294967295UL > left[i])); show(' ');
    putchar(10);
}
static void operator_14(void)
{
    int i; unsigned long near; register unsigned long bank;
    for (i = 0; i < 8; i++) { bank = left[i]; mix(bank <= 32767); } mix(sizeof(bank <= 32767)); show(' ');
    for (i = 0; i < 8; i++) { bank = left[i]; mix(32767 <= bank); } mix(sizeof(32767 <= bank)); show(' ');
    for (i = 0; i < 8; i++) { kept = left[i]; mix(kept <= 255u); } mix(sizeof(kept <= 255u)); show(' ');
    for (i = 0; i < 8; i++) { kept = left[i]; mix(40000u <= kept); } mix(sizeof(40000u <= kept)); show(' ');
    for (i = 0; i < 8; i++) {  mix(left[i] <= 65535L); } mix(sizeof(left[i] <= 65535L)); show(' ');
    for (i = 0; i < 8; i++) {  mix(0L <= left[i]); } mix(sizeof(0L <= left[i])); show(' ');
    for (i = 0; i < 8; i++) { near = left[i]; mix(near <= 65536UL); } mix(sizeof(near <= 65536UL)); show(' ');
    for (i = 0; i < 8; i++) { near = left[i]; mix(31UL <= near); } mix(sizeof(31UL <= near)); show(' ');
    putchar(10);
}
static void operator_15(void)
{
    int i; unsigned long near; register unsigned long bank;
    for (i = 0; i < 8; i++) { kept = left[i]; mix(kept >= (-257)); } mix(sizeof(kept >= (-257))); show(' ');
    for (i = 0; i < 8; i++) { kept = left[i]; mix((-257) >= kept); } mix(sizeof((-257) >= kept)); show(' ');
    for (i = 0; i < 8; i++) {  mix(left[i] >= 32768u); } mix(sizeof(left[i] >= 32768u)); show(' ');
    for (i = 0; i < 8; i++) {  mix(16u >= left[i]); } mix(sizeof(16u >= left[i])); show(' ');
    for (i = 0; i < 8; i++) { near = left[i]; mix(near >= 0L); } mix(sizeof(near >= 0L)); show(' ');
    for (i = 0; i < 8; i++) { near = left[i]; mix((-32769L) >= near); } mix(sizeof((-32769L) >= near)); show(' ');
    for (i = 0; i < 8; i++) { bank = left[i]; mix(bank >= 2147483647UL); } mix(sizeof(bank >= 2147483647UL)); show(' ');
    for (i = 0; i < 8; i++) { bank = left[i]; mix(0UL >= bank); } mix(sizeof(0UL >= bank)); show(' ');
    putchar(10);
}
int main(void)
{
    operator_0();
    operator_1();
    operator_2();
    operator_3();
    operator_4();
    operator_5();
    operator_6();
    operator_7();
    operator_8();
    operator_9();
    operator_10();
    operator_11();
    operator_12();
    operator_13();
    operator_14();
    operator_15();
    return 0;
}
