int putchar(int c);
static unsigned long sum;
static void mix(unsigned long v) { sum = sum + sum + sum + v; }
static void hex(unsigned long n, int digits) { if (digits > 1) hex(n >> 4, digits - 1); putchar("0123456789abcdef"[n & 15]); }
static void show(int end) { hex(sum, 8); putchar(end); sum = 0; }
static unsigned char left[] = { ((unsigned char) 0), ((unsigned char) 1), ((unsigned char) 2), ((unsigned char) 7), ((unsigned char) 127), ((unsigned char) 128), ((unsigned char) 200), ((unsigned char) 255) };
static unsigned char kept;
static void operator_0(void)
{
    int i; unsigned char near; register unsigned char bank;
    for (i = 0; i < 8; i++) {  mix(left[i] + 256); } mix(sizeof(left[i] + 256)); show(' ');
    for (i = 0; i < 8; i++) {  mix(left[i] + (-1)); } mix(sizeof(left[i] + (-1))); show(' ');
    for (i = 0; i < 8; i++) {  mix(left[i] + 32767); } mix(sizeof(left[i] + 32767)); show(' ');
    for (i = 0; i < 8; i++) {  mix(1 + left[i]); } mix(sizeof(1 + left[i])); show(' ');
    for (i = 0; i < 8; i++) { near = left[i]; mix(near + 40000u); } mix(sizeof(near + 40000u)); show(' ');
    for (i = 0; i < 8; i++) { near = left[i]; mix(near + 32768u); } mix(sizeof(near + 32768u)); show(' ');
    for (i = 0; i < 8; i++) { near = left[i]; mix(near + 127u); } mix(sizeof(near + 127u)); show(' ');
    for (i = 0; i < 8; i++) { near = left[i]; mix(127u + near); } mix(sizeof(127u + near)); show(' ');
    for (i = 0; i < 8; i++) { bank = left[i]; mix(bank + (-65537L)); } mix(sizeof(bank + (-65537L))); show(' ');
    for (i = 0; i < 8; i++) { bank = left[i]; mix(bank + 0L); } mix(sizeof(bank + 0L)); show(' ');
    for (i = 0; i < 8; i++) { bank = left[i]; mix(bank + 1L); } mix(sizeof(bank + 1L)); show(' ');
    for (i = 0; i < 8; i++) { bank = left[i]; mix(65535L + bank); } mix(sizeof(65535L + bank)); show(' ');
    for (i = 0; i < 8; i++) { kept = left[i]; mix(kept + 65536UL); } mix(sizeof(kept + 65536UL)); show(' ');
    for (i = 0; i < 8; i++) { kept = left[i]; mix(kept + 1UL); } mix(sizeof(kept + 1UL)); show(' ');
    for (i = 0; i < 8; i++) { kept = left[i]; mix(kept + 2147483648UL); } mix(sizeof(kept + 2147483648UL)); show(' ');
    for (i = 0; i < 8; i++) { kept = left[i]; mix(65535UL + kept); } mix(sizeof(65535UL + kept)); show(' ');
    putchar(10);
}
static void operator_1(void)
{
    int i; unsigned char near; register unsigned char bank;
    for (i = 0; i < 8; i++) { near = left[i]; mix(near - 256); } mix(sizeof(near - 256)); show(' ');
    for (i = 0; i < 8; i++) { near = left[i]; mix(near - (-32767 - 1)); } mix(sizeof(near - (-32767 - 1))); show(' ');
    for (i = 0; i < 8; i++) { near = left[i]; mix(near - (-257)); } mix(sizeof(near - (-257))); show(' ');
    for (i = 0; i < 8; i++) { near = left[i]; mix((-128) - near); } mix(sizeof((-128) - near)); show(' ');
    for (i = 0; i < 8; i++) { bank = left[i]; mix(bank - 65535u); } mix(sizeof(bank - 65535u)); show(' ');
    for (i = 0; i < 8; i++) { bank = left[i]; mix(bank - 32768u); } mix(sizeof(bank - 32768u)); show(' ');
    for (i = 0; i < 8; i++) { bank = left[i]; mix(bank - 127u); } mix(sizeof(bank - 127u)); show(' ');
    for (i = 0; i < 8; i++) { bank = left[i]; mix(127u - bank); } mix(sizeof(127u - bank)); show(' ');
    for (i = 0; i < 8; i++) { kept = left[i]; mix(kept - 255L); } mix(sizeof(kept - 255L)); show(' ');
    for (i = 0; i < 8; i++) { kept = left[i]; mix(kept - (-1L)); } mix(sizeof(kept - (-1L))); show(' ');
    for (i = 0; i < 8; i++) { kept = left[i]; mix(kept - (-32769L)); } mix(sizeof(kept - (-32769L))); show(' ');
    for (i = 0; i < 8; i++) { kept = left[i]; mix(1L - kept); } mix(sizeof(1L - kept)); show(' ');
    for (i = 0; i < 8; i++) {  mix(left[i] - 0UL); } mix(sizeof(left[i] - 0UL)); show(' ');
    for (i = 0; i < 8; i++) {  mix(left[i] - 65536UL); } mix(sizeof(left[i] - 65536UL)); show(' ');
    for (i = 0; i < 8; i++) {  mix(left[i] - 65535UL); } mix(sizeof(left[i] - 65535UL)); show(' ');
    for (i = 0; i < 8; i++) {  mix(2147483648UL - left[i]); } mix(sizeof(2147483648UL - left[i])); show(' ');
    putchar(10);
}
static void operator_2(void)
{
    int i; unsigned char near; register unsigned char bank;
    for (i = 0; i < 8; i++) { bank = left[i]; mix(bank * 1); } mix(sizeof(bank * 1)); show(' ');
    for (i = 0; i < 8; i++) { bank = left[i]; mix((-32767 - 1) * bank); } mix(sizeof((-32767 - 1) * bank)); show(' ');
    for (i = 0; i < 8; i++) { kept = left[i]; mix(kept * 0u); } mix(sizeof(kept * 0u)); show(' ');
    for (i = 0; i < 8; i++) { kept = left[i]; mix(16u * kept); } mix(sizeof(16u * kept)); show(' ');
    for (i = 0; i < 8; i++) {  mix(left[i] * (-2147483647L - 1)); } mix(sizeof(left[i] * (-2147483647L - 1))); show(' ');
    for (i = 0; i < 8; i++) {  mix((-65537L) * left[i]); } mix(sizeof((-65537L) * left[i])); show(' ');
    for (i = 0; i < 8; i++) { near = left[i]; mix(near * 65535UL); } mix(sizeof(near * 65535UL)); show(' ');
    for (i = 0; i < 8; i++) { near = left[i]; mix(65535UL * near); } mix(sizeof(65535UL * near)); show(' ');
    putchar(10);
}
static void operator_3(void)
{
    int i; unsigned char near; register unsigned char bank;
    for (i = 0; i < 8; i++) { kept = left[i]; mix(kept / (-1)); } mix(sizeof(kept / (-1))); show(' ');
    for (i = 0; i < 8; i++) { kept = left[i]; if (kept == ((unsigned char) 1) || kept == ((unsigned char) 2) || kept == ((unsigned char) 7) || kept == ((unsigned char) 127) || kept == ((unsigned char) 128) || kept == ((unsigned char) 200) || kept == ((unsigned char) 255)) mix((-32767 - 1) / kept); } mix(sizeof((-32767 - 1) / kept)); show(' ');
    for (i = 0; i < 8; i++) {  mix(left[i] / 255u); } mix(sizeof(left[i] / 255u)); show(' ');
    for (i = 0; i < 8; i++) {  if (left[i] == ((unsigned char) 1) || left[i] == ((unsigned char) 2) || left[i] == ((unsigned char) 7) || left[i] == ((unsigned char) 127) || left[i] == ((unsigned char) 128) || left[i] == ((unsigned char) 200) || left[i] == ((unsigned char) 255)) mix(65535u / left[i]); } mix(sizeof(65535u / left[i])); show(' ');
    for (i = 0; i < 8; i++) { near = left[i]; mix(near / (-1L)); } mix(sizeof(near / (-1L))); show(' ');
    for (i = 0; i < 8; i++) { near = left[i]; if (near == ((unsigned char) 1) || near == ((unsigned char) 2) || near == ((unsigned char) 7) || near == ((unsigned char) 127) || near == ((unsigned char) 128) || near == ((unsigned char) 200) || near == ((unsigned char) 255)) mix(2147483647L / near); } mix(sizeof(2147483647L / near)); show(' ');
    for (i = 0; i < 8; i++) { bank = left[i]; mix(bank / 2147483648UL); } mix(sizeof(bank / 2147483648UL)); show(' ');
    for (i = 0; i < 8; i++) { bank = left[i]; if (bank == ((unsigned char) 1) || bank == ((unsigned char) 2) || bank == ((unsigned char) 7) || bank == ((unsigned char) 127) || bank == ((unsigned char) 128) || bank == ((unsigned char) 200) || bank == ((unsigned char) 255)) mix(2147483648UL / bank); } mix(sizeof(2147483648UL / bank)); show(' ');
    putchar(10);
}
static void operator_4(void)
{
    int i; unsigned char near; register unsigned char bank;
    for (i = 0; i < 8; i++) {  mix(left[i] % 256); } mix(sizeof(left[i] % 256)); show(' ');
    for (i = 0; i < 8; i++) {  if (left[i] == ((unsigned char) 1) || left[i] == ((unsigned char) 2) || left[i] == ((unsigned char) 7) || left[i] == ((unsigned char) 127) || left[i] == ((unsigned char) 128) || left[i] == ((unsigned char) 200) || left[i] == ((unsigned char) 255)) mix(32767 % left[i]); } mix(sizeof(32767 % left[i])); show(' ');
    for (i = 0; i < 8; i++) { near = left[i]; mix(near % 32768u); } mix(sizeof(near % 32768u)); show(' ');
    for (i = 0; i < 8; i++) { near = left[i]; if (near == ((unsigned char) 1) || near == ((unsigned char) 2) || near == ((unsigned char) 7) || near == ((unsigned char) 127) || near == ((unsigned char) 128) || near == ((unsigned char) 200) || near == ((unsigned char) 255)) mix(127u % near); } mix(sizeof(127u % near)); show(' ');
    for (i = 0; i < 8; i++) { bank = left[i]; mix(bank % (-1L)); } mix(sizeof(bank % (-1L))); show(' ');
    for (i = 0; i < 8; i++) { bank = left[i]; if (bank == ((unsigned char) 1) || bank == ((unsigned char) 2) || bank == ((unsigned char) 7) || bank == ((unsigned char) 127) || bank == ((unsigned char) 128) || bank == ((unsigned char) 200) || bank == ((unsigned char) 255)) mix(1L % bank); } mix(sizeof(1L % bank)); show(' ');
    for (i = 0; i < 8; i++) { kept = left[i]; mix(kept % 2147483647UL); } mix(sizeof(kept % 2147483647UL)); show(' ');
    for (i = 0; i < 8; i++) { kept = left[i]; if (kept == ((unsigned char) 1) || kept == ((unsigned char) 2) || kept == ((unsigned char) 7) || kept == ((unsigned char) 127) || kept == ((unsigned char) 128) || kept == ((unsigned char) 200) || kept == ((unsigned char) 255)) mix(2147483648UL % kept); } mix(sizeof(2147483648UL % kept)); show(' ');
    putchar(10);
}
static void operator_5(void)
{
    int i; unsigned char near; register unsigned char bank;
    for (i = 0; i < 8; i++) { near = left[i]; mix(near << 0); } mix(sizeof(near << 0)); show(' ');
    for (i = 0; i < 8; i++) { near = left[i]; if (near == ((unsigned char) 0) || near == ((unsigned char) 1) || near == ((unsigned char) 2) || near == ((unsigned char) 7)) mix(0 << near); } mix(sizeof(0 << near)); show(' ');
    for (i = 0; i < 8; i++) { bank = left[i]; mix(bank << 15u); } mix(sizeof(bank << 15u)); show(' ');
    for (i = 0; i < 8; i++) { bank = left[i]; if (bank == ((unsigned char) 0) || bank == ((unsigned char) 1) || bank == ((unsigned char) 2) || bank == ((unsigned char) 7)) mix(32768u << bank); } mix(sizeof(32768u << bank)); show(' ');
    for (i = 0; i < 8; i++) { kept = left[i]; mix(kept << 7L); } mix(sizeof(kept << 7L)); show(' ');
    for (i = 0; i < 8; i++) { kept = left[i]; if (kept == ((unsigned char) 0) || kept == ((unsigned char) 1) || kept == ((unsigned char) 2) || kept == ((unsigned char) 7)) mix((-2147483647L - 1) << kept); } mix(sizeof((-2147483647L - 1) << kept)); show(' ');
    for (i = 0; i < 8; i++) {  mix(left[i] << 9UL); } mix(sizeof(left[i] << 9UL)); show(' ');
    for (i = 0; i < 8; i++) {  if (left[i] == ((unsigned char) 0) || left[i] == ((unsigned char) 1) || left[i] == ((unsigned char) 2) || left[i] == ((unsigned char) 7)) mix(1UL << left[i]); } mix(sizeof(1UL << left[i])); show(' ');
    putchar(10);
}
static void operator_6(void)
{
    int i; unsigned char near; register unsigned char bank;
    for (i = 0; i < 8; i++) { bank = left[i]; mix(bank >> 7); } mix(sizeof(bank >> 7)); show(' ');
    for (i = 0; i < 8; i++) { bank = left[i]; if (bank == ((unsigned char) 0) || bank == ((unsigned char) 1) || bank == ((unsigned char) 2) || bank == ((unsigned char) 7)) mix(256 >> bank); } mix(sizeof(256 >> bank)); show(' ');
    for (i = 0; i < 8; i++) { kept = left[i]; mix(kept >> 15u); } mix(sizeof(kept >> 15u)); show(' ');
    for (i = 0; i < 8; i++) { kept = left[i]; if (kept == ((unsigned char) 0) || kept == ((unsigned char) 1) || kept == ((unsigned char) 2) || kept == ((unsigned char) 7)) mix(16u >> kept); } mix(sizeof(16u >> kept)); show(' ');
    for (i = 0; i < 8; i++) {  mix(left[i] >> 7L); } mix(sizeof(left[i] >> 7L)); show(' ');
    for (i = 0; i < 8; i++) {  if (left[i] == ((unsigned char) 0) || left[i] == ((unsigned char) 1) || left[i] == ((unsigned char) 2) || left[i] == ((unsigned char) 7)) mix((-65537L) >> left[i]); } mix(sizeof((-65537L) >> left[i])); show(' ');
    for (i = 0; i < 8; i++) { near = left[i]; mix(near >> 9UL); } mix(sizeof(near >> 9UL)); show(' ');
    for (i = 0; i < 8; i++) { near = left[i]; if (near == ((unsigned char) 0) || near == ((unsigned char) 1) || near == ((unsigned char) 2) || near == ((unsigned char) 7)) mix(2147483647UL >> near); } mix(sizeof(2147483647UL >> near)); show(' ');
    putchar(10);
}
static void operator_7(void)
{
    int i; unsigned char near; register unsigned char bank;
    for (i = 0; i < 8; i++) { kept = left[i]; mix(kept & (-32767 - 1)); } mix(sizeof(kept & (-32767 - 1))); show(' ');
    for (i = 0; i < 8; i++) { kept = left[i]; mix((-1) & kept); } mix(sizeof((-1) & kept)); show(' ');
    for (i = 0; i < 8; i++) {  mix(left[i] & 65535u); } mix(sizeof(left[i] & 65535u)); show(' ');
    for (i = 0; i < 8; i++) {  mix(127u & left[i]); } mix(sizeof(127u & left[i])); show(' ');
    for (i = 0; i < 8; i++) { near = left[i]; mix(near & (-65537L)); } mix(sizeof(near & (-65537L))); show(' ');
    for (i = 0; i < 8; i++) { near = left[i]; mix((-2147483647L - 1) & near); } mix(sizeof((-2147483647L - 1) & near)); show(' ');
    for (i = 0; i < 8; i++) { bank = left[i]; mix(bank & 1UL); } mix(sizeof(bank & 1UL)); show(' ');
    for (i = 0; i < 8; i++) { bank = left[i]; mix(0UL & bank); } mix(sizeof(0UL & bank)); show(' ');
    putchar(10);
}
static void operator_8(void)
{
    int i; unsigned char near; register unsigned char bank;
    for (i = 0; i < 8; i++) {  mix(left[i] | 1); } mix(sizeof(left[i] | 1)); show(' ');
    for (i = 0; i < 8; i++) {  mix(256 | left[i]); } mix(sizeof(256 | left[i])); show(' ');
    for (i = 0; i < 8; i++) { near = left[i]; mix(near | 32768u); } mix(sizeof(near | 32768u)); show(' ');
    for (i = 0; i < 8; i++) { near = left[i]; mix(16u | near); } mix(sizeof(16u | near)); show(' ');
    for (i = 0; i < 8; i++) { bank = left[i]; mix(bank | 65536L); } mix(sizeof(bank | 65536L)); show(' ');
    for (i = 0; i < 8; i++) { bank = left[i]; mix(0L | bank); } mix(sizeof(0L | bank)); show(' ');
    for (i = 0; i < 8; i++) { kept = left[i]; mix(kept | 0UL); } mix(sizeof(kept | 0UL)); show(' ');
    for (i = 0; i < 8; i++) { kept = left[i]; mix(65535UL | kept); } mix(sizeof(65535UL | kept)); show(' ');
    putchar(10);
}
static void operator_9(void)
{
    int i; unsigned char near; register unsigned char bank;
    for (i = 0; i < 8; i++) { near = left[i]; mix(near ^ 1); } mix(sizeof(near ^ 1)); show(' ');
    for (i = 0; i < 8; i++) { near = left[i]; mix(15 ^ near); } mix(sizeof(15 ^ near)); show(' ');
    for (i = 0; i < 8; i++) { bank = left[i]; mix(bank ^ 16u); } mix(sizeof(bank ^ 16u)); show(' ');
    for (i = 0; i < 8; i++) { bank = left[i]; mix(32768u ^ bank); } mix(sizeof(32768u ^ bank)); show(' ');
    for (i = 0; i < 8; i++) { kept = left[i]; mix(kept ^ 2147483647L); } mix(sizeof(kept ^ 2147483647L)); show(' ');
    for (i = 0; i < 8; i++) { kept = left[i]; mix((-65537L) ^ kept); } mix(sizeof((-65537L) ^ kept)); show(' ');
    for (i = 0; i < 8; i++) {  mix(left[i] ^ 4294967295UL); } mix(sizeof(left[i] ^ 4294967295UL)); show(' ');
    for (i = 0; i < 8; i++) {  mix(65535UL ^ left[i]); } mix(sizeof(65535UL ^ left[i])); show(' ');
    putchar(10);
}
static void operator_10(void)
{
    int i; unsigned char near; register unsigned char bank;
    for (i = 0; i < 8; i++) { bank = left[i]; mix(bank == (-32767 - 1)); } mix(sizeof(bank == (-32767 - 1))); show(' ');
    for (i = 0; i < 8; i++) { bank = left[i]; mix((-32767 - 1) == bank); } mix(sizeof((-32767 - 1) == bank)); show(' ');
    for (i = 0; i < 8; i++) { kept = left[i]; mix(kept == 40000u); } mix(sizeof(kept == 40000u)); show(' ');
    for (i = 0; i < 8; i++) { kept = left[i]; mix(1u == kept); } mix(sizeof(1u == kept)); show(' ');
    for (i = 0; i < 8; i++) {  mix(left[i] == (-2147483647L - 1)); } mix(sizeof(left[i] == (-2147483647L - 1))); show(' ');
    for (i = 0; i < 8; i++) {  mix((-1L) == left[i]); } mix(sizeof((-1L) == left[i])); show(' ');
    for (i = 0; i < 8; i++) { near = left[i]; mix(near == 2147483647UL); } mix(sizeof(near == 2147483647UL)); show(' ');
    for (i = 0; i < 8; i++) { near = left[i]; mix(2147483647UL == near); } mix(sizeof(2147483647UL == near)); show(' ');
    putchar(10);
}
static void operator_11(void)
{
    int i; unsigned char near; register unsigned char bank;
    for (i = 0; i < 8; i++) { kept = left[i]; mix(kept != (-257)); } mix(sizeof(kept != (-257))); show(' ');
    for (i = 0; i < 8; i++) { kept = left[i]; mix(256 != kept); } mix(sizeof(256 != kept)); show(' ');
    for (i = 0; i < 8; i++) {  mix(left[i] != 255u); } mix(sizeof(left[i] != 255u)); show(' ');
    for (i = 0; i < 8; i++) {  mix(65535u != left[i]); } mix(sizeof(65535u != left[i])); show(' ');
    for (i = 0; i < 8; i++) { near = left[i]; mix(near != 2147483647L); } mix(sizeof(near != 2147483647L)); show(' ');
    for (i = 0; i < 8; i++) { near = left[i]; mix((-2147483647L - 1) != near); } mix(sizeof((-2147483647L - 1) != near)); show(' ');
    for (i = 0; i < 8; i++) { bank = left[i]; mix(bank != 0UL); } mix(sizeof(bank != 0UL)); show(' ');
    for (i = 0; i < 8; i++) { bank = left[i]; mix(2147483647UL != bank); } mix(sizeof(2147483647UL != bank)); show(' ');
    putchar(10);
}
static void operator_12(void)
{
    int i; unsigned char near; register unsigned char bank;
    for (i = 0; i < 8; i++) {  mix(left[i] < 0); } mix(sizeof(left[i] < 0)); show(' ');
    for (i = 0; i < 8; i++) {  mix(32767 < left[i]); } mix(sizeof(32767 < left[i])); show(' ');
    for (i = 0; i < 8; i++) { near = left[i]; mix(near < 1u); } mix(sizeof(near < 1u)); show(' ');
    for (i = 0; i < 8; i++) { near = left[i]; mix(255u < near); } mix(sizeof(255u < near)); show(' ');
    for (i = 0; i < 8; i++) { bank = left[i]; mix(bank < 65535L); } mix(sizeof(bank < 65535L)); show(' ');
    for (i = 0; i < 8; i++) { bank = left[i]; mix(2147483647L < bank); } mix(sizeof(2147483647L < bank)); show(' ');
    for (i = 0; i < 8; i++) { kept = left[i]; mix(kept < 2147483647UL); } mix(sizeof(kept < 2147483647UL)); show(' ');
    for (i = 0; i < 8; i++) { kept = left[i]; mix(2147483648UL < kept); } mix(sizeof(2147483648UL < kept)); show(' ');
    putchar(10);
}
static void operator_13(void)
{
    int i; unsigned char near; register unsigned char bank;
    for (i = 0; i < 8; i++) { near = left[i]; mix(near > 1); } mix(sizeof(near > 1)); show(' ');
    for (i = 0; i < 8; i++) { near = left[i]; mix(32767 > near); } mix(sizeof(32767 > near)); show(' ');
    for (i = 0; i < 8; i++) { bank = left[i]; mix(bank > 0u); } mix(sizeof(bank > 0u)); show(' ');
    for (i = 0; i < 8; i++) { bank = left[i]; mix(255u > bank); } mix(sizeof(255u > bank)); show(' ');
    for (i = 0; i < 8; i++) { kept = left[i]; mix(kept > 2147483647L); } mix(sizeof(kept > 2147483647L)); show(' ');
    for (i = 0; i < 8; i++) { kept = left[i]; mix((-65537L) > kept); } mix(sizeof((-65537L) > kept)); show(' ');
    for (i = 0; i < 8; i++) {  mix(left[i] > 31UL); } mix(sizeof(left[i] > 31UL)); show(' ');
    for (i = 0; i < 8; i++) {  mix(1UL > left[i]); } mix(sizeof(1UL > left[i])); show(' ');
    putchar(10);
}
static void operator_14(void)
{
    int i; unsigned char near; register unsigned char bank;
    for (i = 0; i < 8; i++) { bank = left[i]; mix(bank <= 1); } mix(sizeof(bank <= 1)); show(' ');
    for (i = 0; i < 8; i++) { bank = left[i]; mix(0 <= bank); } mix(sizeof(0 <= bank)); show(' ');
    for (i = 0; i < 8; i++) { kept = left[i]; mix(kept <= 127u); } mix(sizeof(kept <= 127u)); show(' ');
    for (i = 0; i < 8; i++) { kept = left[i]; mix(127u <= kept); } mix(sizeof(127u <= kept)); show(' ');
    for (i = 0; i < 8; i++) {  mix(left[i] <= (-65537L)); } mix(sizeof(left[i] <= (-65537L))); show(' ');
    for (i = 0; i < 8; i++) {  mix((-2147483647L - 1) <= left[i]); } mix(sizeof((-2147483647L - 1) <= left[i])); show(' ');
    for (i = 0; i < 8; i++) { near = left[i]; mix(near <= 2147483647UL); } mix(sizeof(near <= 2147483647UL)); show(' ');
    for (i = 0; i < 8; i++) { near = left[i]; mix(2147483647UL <= near); } mix(sizeof(2147483647UL <= near)); show(' ');
    putchar(10);
}
static void operator_15(void)
{
    int i; unsigned char near; register unsigned char bank;
    for (i = 0; i < 8; i++) { kept = left[i]; mix(kept >= (-128)); } mix(sizeof(kept >= (-128))); show(' ');
    for (i = 0; i < 8; i++) { kept = left[i]; mix((-32767 - 1) >= kept); } mix(sizeof((-32767 - 1) >= kept)); show(' ');
    for (i = 0; i < 8; i++) {  mix(left[i] >= 0u); } mix(sizeof(left[i] >= 0u)); show(' ');
    for (i = 0; i < 8; i++) {  mix(1u >= left[i]); } mix(sizeof(1u >= left[i])); show(' ');
    for (i = 0; i < 8; i++) { near = left[i]; mix(near >= (-1L)); } mix(sizeof(near >= (-1L))); show(' ');
    for (i = 0; i < 8; i++) { near = left[i]; mix(1L >= near); } mix(sizeof(1L >= near)); show(' ');
    for (i = 0; i < 8; i++) { bank = left[i]; mix(bank >= 1UL); } mix(sizeof(bank >= 1UL)); show(' ');
    for (i = 0; i < 8; i++) { bank = left[i]; mix(0UL >= bank); } mix(sizeof(0UL >= bank)); show(' ');
    putchar(10);
}
int main(void)
{
    operator_0();
    operator_1();
    operator_2();
    operator_3();
    operator_4();
    operator_5();
    operator_6();
    operator_7();
    operator_8();
    operator_9();
    operator_10();
    operator_11();
    operator_12();
    operator_13();
    operator_14();
    operator_15();
    return 0;
}
