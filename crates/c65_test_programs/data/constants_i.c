int putchar(int c);
static unsigned long sum;
static void mix(unsigned long v) { sum = sum + sum + sum + v; }
static void hex(unsigned long n, int digits) { if (digits > 1) hex(n >> 4, digits - 1); putchar("0123456789abcdef"[n & 15]); }
static void show(int end) { hex(sum, 8); putchar(end); sum = 0; }
static int left[] = { (-32767 - 1), (-257), (-128), (-1), 0, 1, 15, 256, 32767 };
static int kept;
static void operator_0(void)
{
    int i; int near; register int bank;
    for (i = 0; i < 9; i++) {  mix(left[i] + (-257)); } mix(sizeof(left[i] + (-257))); show(' ');
    for (i = 0; i < 9; i++) {  mix(left[i] + 15); } mix(sizeof(left[i] + 15)); show(' ');
    for (i = 0; i < 9; i++) {  mix(left[i] + 0); } mix(sizeof(left[i] + 0)); show(' ');
    for (i = 0; i < 9; i++) {  mix(256 + left[i]); } mix(sizeof(256 + left[i])); show(' ');
    for (i = 0; i < 9; i++) { near = left[i]; mix(near + 255u); } mix(sizeof(near + 255u)); show(' ');
    for (i = 0; i < 9; i++) { near = left[i]; mix(near + 40000u); } mix(sizeof(near + 40000u)); show(' ');
    for (i = 0; i < 9; i++) { near = left[i]; mix(near + 0u); } mix(sizeof(near + 0u)); show(' ');
    for (i = 0; i < 9; i++) { near = left[i]; mix(16u + near); } mix(sizeof(16u + near)); show(' ');
    for (i = 0; i < 9; i++) { bank = left[i]; mix(bank + (-1L)); } mix(sizeof(bank + (-1L))); show(' ');
    for (i = 0; i < 9; i++) { bank = left[i]; mix(bank + 65535L); } mix(sizeof(bank + 65535L)); show(' ');
    for (i = 0; i < 9; i++) { bank = left[i]; mix(bank + (-32769L)); } mix(sizeof(bank + (-32769L))); show(' ');
    for (i = 0; i < 9; i++) { bank = left[i]; mix((-65537L) + bank); } mix(sizeof((-65537L) + bank)); show(' ');
    for (i = 0; i < 9; i++) { kept = left[i]; mix(kept + 31UL); } mix(sizeof(kept + 31UL)); show(' ');
    for (i = 0; i < 9; i++) { kept = left[i]; mix(kept + 2147483648UL); } mix(sizeof(kept + 2147483648UL)); show(' ');
    for (i = 0; i < 9; i++) { kept = left[i]; mix(kept + 2147483647UL); } mix(sizeof(kept + 2147483647UL)); show(' ');
    for (i = 0; i < 9; i++) { kept = left[i]; mix(31UL + kept); } mix(sizeof(31UL + kept)); show(' ');
    putchar(10);
}
static void operator_1(void)
{
    int i; int near; register int bank;
    for (i = 0; i < 9; i++) { near = left[i]; mix(near - (-257)); } mix(sizeof(near - (-257))); show(' ');
    for (i = 0; i < 9; i++) { near = left[i]; mix(near - 256); } mix(sizeof(near - 256)); show(' ');
    for (i = 0; i < 9; i++) { near = left[i]; mix(near - 1); } mix(sizeof(near - 1)); show(' ');
    for (i = 0; i < 9; i++) { near = left[i]; mix(0 - near); } mix(sizeof(0 - near)); show(' ');
    for (i = 0; i < 9; i++) { bank = left[i]; mix(bank - 16u); } mix(sizeof(bank - 16u)); show(' ');
    for (i = 0; i < 9; i++) { bank = left[i]; mix(bank - 127u); } mix(sizeof(bank - 127u)); show(' ');
    for (i = 0; i < 9; i++) { bank = left[i]; mix(bank - 32768u); } mix(sizeof(bank - 32768u)); show(' ');
    for (i = 0; i < 9; i++) { bank = left[i]; mix(0u - bank); } mix(sizeof(0u - bank)); show(' ');
    for (i = 0; i < 9; i++) { kept = left[i]; mix(kept - 65536L); } mix(sizeof(kept - 65536L)); show(' ');
    for (i = 0; i < 9; i++) { kept = left[i]; mix(kept - (-2147483647L - 1)); } mix(sizeof(kept - (-2147483647L - 1))); show(' ');
    for (i = 0; i < 9; i++) { kept = left[i]; mix(kept - (-1L)); } mix(sizeof(kept - (-1L))); show(' ');
    for (i = 0; i < 9; i++) { kept = left[i]; mix(0L - kept); } mix(sizeof(0L - kept)); show(' ');
    for (i = 0; i < 9; i++) {  mix(left[i] - 2147483647UL); } mix(sizeof(left[i] - 2147483647UL)); show(' ');
    for (i = 0; i < 9; i++) {  mix(left[i] - 4294967295UL); } mix(sizeof(left[i] - 4294967295UL)); show(' ');
    for (i = 0; i < 9; i++) {  mix(left[i] - 31UL); } mix(sizeof(left[i] - 31UL)); show(' ');
    for (i = 0; i < 9; i++) {  mix(0UL - left[i]); } mix(sizeof(0UL - left[i])); show(' ');
    putchar(10);
}
static void operator_2(void)
{
    int i; int near; register int bank;
    for (i = 0; i < 9; i++) { bank = left[i]; mix(bank * 0); } mix(sizeof(bank * 0)); show(' ');
    for (i = 0; i < 9; i++) { bank = left[i]; mix((-1) * bank); } mix(sizeof((-1) * bank)); show(' ');
    for (i = 0; i < 9; i++) { kept = left[i]; mix(kept * 65535u); } mix(sizeof(kept * 65535u)); show(' ');
    for (i = 0; i < 9; i++) { kept = left[i]; mix(1u * kept); } mix(sizeof(1u * kept)); show(' ');
    for (i = 0; i < 9; i++) {  mix(left[i] * 65536L); } mix(sizeof(left[i] * 65536L)); show(' ');
    for (i = 0; i < 9; i++) {  mix((-65537L) * left[i]); } mix(sizeof((-65537L) * left[i])); show(' ');
    for (i = 0; i < 9; i++) { near = left[i]; mix(near * 4294967295UL); } mix(sizeof(near * 4294967295UL)); show(' ');
    for (i = 0; i < 9; i++) { near = left[i]; mix(2147483648UL * near); } mix(sizeof(2147483648UL * near)); show(' ');
    putchar(10);
}
static void operator_3(void)
{
    int i; int near; register int bank;
    for (i = 0; i < 9; i++) { kept = left[i]; mix(kept / (-257)); } mix(sizeof(kept / (-257))); show(' ');
    for (i = 0; i < 9; i++) { kept = left[i]; if (kept == (-32767 - 1) || kept == (-257) || kept == (-128) || kept == (-1) || kept == 1 || kept == 15 || kept == 256 || kept == 32767) mix(15 / kept); } mix(sizeof(15 / kept)); show(' ');
    for (i = 0; i < 9; i++) {  mix(left[i] / 127u); } mix(sizeof(left[i] / 127u)); show(' ');
    for (i = 0; i < 9; i++) {  if (left[i] == (-32767 - 1) || left[i] == (-257) || left[i] == (-128) || left[i] == (-1) || left[i] == 1 || left[i] == 15 || left[i] == 256 || left[i] == 32767) mix(127u / left[i]); } mix(sizeof(127u / left[i])); show(' ');
    for (i = 0; i < 9; i++) { near = left[i]; mix(near / 2147483647L); } mix(sizeof(near / 2147483647L)); show(' ');
    for (i = 0; i < 9; i++) { near = left[i]; if (near == (-32767 - 1) || near == (-257) || near == (-128) || near == (-1) || near == 1 || near == 15 || near == 256 || near == 32767) mix((-1L) / near); } mix(sizeof((-1L) / near)); show(' ');
    for (i = 0; i < 9; i++) { bank = left[i]; mix(bank / 31UL); } mix(sizeof(bank / 31UL)); show(' ');
    for (i = 0; i < 9; i++) { bank = left[i]; if (bank == (-32767 - 1) || bank == (-257) || bank == (-128) || bank == (-1) || bank == 1 || bank == 15 || bank == 256 || bank == 32767) mix(4294967295UL / bank); } mix(sizeof(4294967295UL / bank)); show(' ');
    putchar(10);
}
static void operator_4(void)
{
    int i; int near; register int bank;
    for (i = 0; i < 9; i++) {  mix(left[i] % 256); } mix(sizeof(left[i] % 256)); show(' ');
    for (i = 0; i < 9; i++) {  if (left[i] == (-32767 - 1) || left[i] == (-257) || left[i] == (-128) || left[i] == (-1) || left[i] == 1 || left[i] == 15 || left[i] == 256 || left[i] == 32767) mix(32767 % left[i]); } mix(sizeof(32767 % left[i])); show(' ');
    for (i = 0; i < 9; i++) { near = left[i]; mix(near % 16u); } mix(sizeof(near % 16u)); show(' ');
    for (i = 0; i < 9; i++) { near = left[i]; if (near == (-32767 - 1) || near == (-257) || near == (-128) || near == (-1) || near == 1 || near == 15 || near == 256 || near == 32767) mix(16u % near); } mix(sizeof(16u % near)); show(' ');
    for (i = 0; i < 9; i++) { bank = left[i]; mix(bank % (-2147483647L - 1)); } mix(sizeof(bank % (-2147483647L - 1))); show(' ');
    for (i = 0; i < 9; i++) { bank = left[i]; if (bank == (-32767 - 1) || bank == (-257) || bank == (-128) || bank == (-1) || bank == 1 || bank == 15 || bank == 256 || bank == 32767) mix(65536L % bank); } mix(sizeof(65536L % bank)); show(' ');
    for (i = 0; i < 9; i++) { kept = left[i]; mix(kept % 4294967295UL); } mix(sizeof(kept % 4294967295UL)); show(' ');
    for (i = 0; i < 9; i++) { kept = left[i]; if (kept == (-32767 - 1) || kept == (-257) || kept == (-128) || kept == (-1) || kept == 1 || kept == 15 || kept == 256 || kept == 32767) mix(4294967295UL % kept); } mix(sizeof(4294967295UL % kept)); show(' ');
    putchar(10);
}
static void operator_5(void)
{
    int i; int near; register int bank;
    for (i = 0; i < 9; i++) { near = left[i]; mix(near << 9); } mix(sizeof(near << 9)); show(' ');
    for (i = 0; i < 9; i++) { near = left[i]; if (near == 0 || near == 1 || near == 15) mix(15 << near); } mix(sizeof(15 << near)); show(' ');
    for (i = 0; i < 9; i++) { bank = left[i]; mix(bank << 0u); } mix(sizeof(bank << 0u)); show(' ');
    for (i = 0; i < 9; i++) { bank = left[i]; if (bank == 0 || bank == 1 || bank == 15) mix(65535u << bank); } mix(sizeof(65535u << bank)); show(' ');
    for (i = 0; i < 9; i++) { kept = left[i]; mix(kept << 1L); } mix(sizeof(kept << 1L)); show(' ');
    for (i = 0; i < 9; i++) { kept = left[i]; if (kept == 0 || kept == 1 || kept == 15) mix(65536L << kept); } mix(sizeof(65536L << kept)); show(' ');
    for (i = 0; i < 9; i++) {  mix(left[i] << 7UL); } mix(sizeof(left[i] << 7UL)); show(' ');
    for (i = 0; i < 9; i++) {  if (left[i] == 0 || left[i] == 1 || left[i] == 15) mix(2147483647UL << left[i]); } mix(sizeof(2147483647UL << left[i])); show(' ');
    putchar(10);
}
static void operator_6(void)
{
    int i; int near; register int bank;
    for (i = 0; i < 9; i++) { bank = left[i]; mix(bank >> 1); } mix(sizeof(bank >> 1)); show(' ');
    for (i = 0; i < 9; i++) { bank = left[i]; if (bank == 0 || bank == 1 || bank == 15) mix((-1) >> bank); } mix(sizeof((-1) >> bank)); show(' ');
    for (i = 0; i < 9; i++) { kept = left[i]; mix(kept >> 8u); } mix(sizeof(kept >> 8u)); show(' ');
    for (i = 0; i < 9; i++) { kept = left[i]; if (kept == 0 || kept == 1 || kept == 15) mix(16u >> kept); } mix(sizeof(16u >> kept)); show(' ');
    for (i = 0; i < 9; i++) {  mix(left[i] >> 15L); } mix(sizeof(left[i] >> 15L)); show(' ');
    for (i = 0; i < 9; i++) {  if (left[i] == 0 || left[i] == 1 || left[i] == 15) mix((-32769L) >> left[i]); } mix(sizeof((-32769L) >> left[i])); show(' ');
    for (i = 0; i < 9; i++) { near = left[i]; mix(near >> 7UL); } mix(sizeof(near >> 7UL)); show(' ');
    for (i = 0; i < 9; i++) { near = left[i]; if (near == 0 || near == 1 || near == 15) mix(65535UL >> near); } mix(sizeof(65535UL >> near)); show(' ');
    putchar(10);
}
static void operator_7(void)
{
    int i; int near; register int bank;
    for (i = 0; i < 9; i++) { kept = left[i]; mix(kept & (-128)); } mix(sizeof(kept & (-128))); show(' ');
    for (i = 0; i < 9; i++) { kept = left[i]; mix(15 & kept); } mix(sizeof(15 & kept)); show(' ');
    for (i = 0; i < 9; i++) {  mix(left[i] & 40000u); } mix(sizeof(left[i] & 40000u)); show(' ');
    for (i = 0; i < 9; i++) {  mix(127u & left[i]); } mix(sizeof(127u & left[i])); show(' ');
    for (i = 0; i < 9; i++) { near = left[i]; mix(near & 65536L); } mix(sizeof(near & 65536L)); show(' ');
    for (i = 0; i < 9; i++) { near = left[i]; mix(65535L & near); } mix(sizeof(65535L & near)); show(' ');
    for (i = 0; i < 9; i++) { bank = left[i]; mix(bank & 1UL); } mix(sizeof(bank & 1UL)); show(' ');
    for (i = 0; i < 9; i++) { bank = left[i]; mix(65536UL & bank); } mix(sizeof(65536UL & bank)); show(' ');
    putchar(10);
}
static void operator_8(void)
{
    int i; int near; register int bank;
    for (i = 0; i < 9; i++) {  mix(left[i] | 256); } mix(sizeof(left[i] | 256)); show(' ');
    for (i = 0; i < 9; i++) {  mix((-1) | left[i]); } mix(sizeof((-1) | left[i])); show(' ');
    for (i = 0; i < 9; i++) { near = left[i]; mix(near | 0u); } mix(sizeof(near | 0u)); show(' ');
    for (i = 0; i < 9; i++) { near = left[i]; mix(0u | near); } mix(sizeof(0u | near)); show(' ');
    for (i = 0; i < 9; i++) { bank = left[i]; mix(bank | 2147483647L); } mix(sizeof(bank | 2147483647L)); show(' ');
    for (i = 0; i < 9; i++) { bank = left[i]; mix(1L | bank); } mix(sizeof(1L | bank)); show(' ');
    for (i = 0; i < 9; i++) { kept = left[i]; mix(kept | 4294967295UL); } mix(sizeof(kept | 4294967295UL)); show(' ');
    for (i = 0; i < 9; i++) { kept = left[i]; mix(31UL | kept); } mix(sizeof(31UL | kept)); show(' ');
    putchar(10);
}
static void operator_9(void)
{
    int i; int near; register int bank;
    for (i = 0; i < 9; i++) { near = left[i]; mix(near ^ 15); } mix(sizeof(near ^ 15)); show(' ');
    for (i = 0; i < 9; i++) { near = left[i]; mix((-128) ^ near); } mix(sizeof((-128) ^ near)); show(' ');
    for (i = 0; i < 9; i++) { bank = left[i]; mix(bank ^ 127u); } mix(sizeof(bank ^ 127u)); show(' ');
    for (i = 0; i < 9; i++) { bank = left[i]; mix(127u ^ bank); } mix(sizeof(127u ^ bank)); show(' ');
    for (i = 0; i < 9; i++) { kept = left[i]; mix(kept ^ (-65537L)); } mix(sizeof(kept ^ (-65537L))); show(' ');
    for (i = 0; i < 9; i++) { kept = left[i]; mix(255L ^ kept); } mix(sizeof(255L ^ kept)); show(' ');
    for (i = 0; i < 9; i++) {  mix(left[i] ^ 2147483648UL); } mix(sizeof(left[i] ^ 2147483648UL)); show(' ');
    for (i = 0; i < 9; i++) {  mix(1UL ^ left[i]); } mix(sizeof(1UL ^ left[i])); show(' ');
    putchar(10);
}
static void operator_10(void)
{
    int i; int near; register int bank;
    for (i = 0; i < 9; i++) { bank = left[i]; mix(bank == 32767); } mix(sizeof(bank == 32767)); show(' ');
    for (i = 0; i < 9; i++) { bank = left[i]; mix(32767 == bank); } mix(sizeof(32767 == bank)); show(' ');
    for (i = 0; i < 9; i++) { kept = left[i]; mix(kept == 255u); } mix(sizeof(kept == 255u)); show(' ');
    for (i = 0; i < 9; i++) { kept = left[i]; mix(65535u == kept); } mix(sizeof(65535u == kept)); show(' ');
    for (i = 0; i < 9; i++) {  mix(left[i] == 255L); } mix(sizeof(left[i] == 255L)); show(' ');
    for (i = 0; i < 9; i++) {  mix(0L == left[i]); } mix(sizeof(0L == left[i])); show(' ');
    for (i = 0; i < 9; i++) { near = left[i]; mix(near == 0UL); } mix(sizeof(near == 0UL)); show(' ');
    for (i = 0; i < 9; i++) { near = left[i]; mix(65536UL == near); } mix(sizeof(65536UL == near)); show(' ');
    putchar(10);
}
static void operator_11(void)
{
    int i; int near; register int bank;
    for (i = 0; i < 9; i++) { kept = left[i]; mix(kept != 32767); } mix(sizeof(kept != 32767)); show(' ');
    for (i = 0; i < 9; i++) { kept = left[i]; mix(0 != kept); } mix(sizeof(0 != kept)); show(' ');
    for (i = 0; i < 9; i++) {  mix(left[i] != 65535u); } mix(sizeof(left[i] != 65535u)); show(' ');
    for (i = 0; i < 9; i++) {  mix(1u != left[i]); } mix(sizeof(1u != left[i])); show(' ');
    for (i = 0; i < 9; i++) { near = left[i]; mix(near != (-1L)); } mix(sizeof(near != (-1L))); show(' ');
    for (i = 0; i < 9; i++) { near = left[i]; mix(65536L != near); } mix(sizeof(65536L != near)); show(' ');
    for (i = 0; i < 9; i++) { bank = left[i]; mix(bank != 0UL); } mix(sizeof(bank != 0UL)); show(' ');
    for (i = 0; i < 9; i++) { bank = left[i]; mix(1UL != bank); } mix(sizeof(1UL != bank)); show(' ');
    putchar(10);
}
static void operator_12(void)
{
    int i; int near; register int bank;
    for (i = 0; i < 9; i++) {  mix(left[i] < (-128)); } mix(sizeof(left[i] < (-128))); show(' ');
    for (i = 0; i < 9; i++) {  mix(1 < left[i]); } mix(sizeof(1 < left[i])); show(' ');
    for (i = 0; i < 9; i++) { near = left[i]; mix(near < 65535u); } mix(sizeof(near < 65535u)); show(' ');
    for (i = 0; i < 9; i++) { near = left[i]; mix(255u < near); } mix(sizeof(255u < near)); show(' ');
    for (i = 0; i < 9; i++) { bank = left[i]; mix(bank < 0L); } mix(sizeof(bank < 0L)); show(' ');
    for (i = 0; i < 9; i++) { bank = left[i]; mix((-2147483647L - 1) < bank); } mix(sizeof((-2147483647L - 1) < bank)); show(' ');
    for (i = 0; i < 9; i++) { kept = left[i]; mix(kept < 31UL); } mix(sizeof(kept < 31UL)); show(' ');
    for (i = 0; i < 9; i++) { kept = left[i]; mix(65536UL < kept); } mix(sizeof(65536UL < kept)); show(' ');
    putchar(10);
}
static void operator_13(void)
{
    int i; int near; register int bank;
    for (i = 0; i < 9; i++) { near = left[i]; mix(near > (-32767 - 1)); } mix(sizeof(near > (-32767 - 1))); show(' ');
    for (i = 0; i < 9; i++) { near = left[i]; mix(32767 > near); } mix(sizeof(32767 > near)); show(' ');
    for (i = 0; i < 9; i++) { bank = left[i]; mix(bank > 32768u); } mix(sizeof(bank > 32768u)); show(' ');
    for (i = 0; i < 9; i++) { bank = left[i]; mix(0u > bank); } mix(sizeof(0u > bank)); show(' ');
    for (i = 0; i < 9; i++) { kept = left[i]; mix(kept > (-2147483647L - 1)); } mix(sizeof(kept > (-2147483647L - 1))); show(' ');
    for (i = 0; i < 9; i++) { kept = left[i]; mix(255L > kept); } mix(sizeof(255L > kept)); show(' ');
    for (i = 0; i < 9; i++) {  mix(left[i] > 2147483648UL); } mix(sizeof(left[i] > 2147483648UL)); show(' ');
    for (i = 0; i < 9; i++) {  mix(65535UL > left[i]); } mix(sizeof(65535UL > left[i])); show(' ');
    putchar(10);
}
static void operator_14(void)
{
    int i; int near; register int bank;
    for (i = 0; i < 9; i++) { bank = left[i]; mix(bank <= (-128)); } mix(sizeof(bank <= (-128))); show(' ');
    for (i = 0; i < 9; i++) { bank = left[i]; mix(0 <= bank); } mix(sizeof(0 <= bank)); show(' ');
    for (i = 0; i < 9; i++) { kept = left[i]; mix(kept <= 255u); } mix(sizeof(kept <= 255u)); show(' ');
    for (i = 0; i < 9; i++) { kept = left[i]; mix(1u <= kept); } mix(sizeof(1u <= kept)); show(' ');
    for (i = 0; i < 9; i++) {  mix(left[i] <= 0L); } mix(sizeof(left[i] <= 0L)); show(' ');
    for (i = 0; i < 9; i++) {  mix((-32769L) <= left[i]); } mix(sizeof((-32769L) <= left[i])); show(' ');
    for (i = 0; i < 9; i++) { near = left[i]; mix(near <= 65536UL); } mix(sizeof(near <= 65536UL)); show(' ');
    for (i = 0; i < 9; i++) { near = left[i]; mix(2147483648UL <= near); } mix(sizeof(2147483648UL <= near)); show(' ');
    putchar(10);
}
static void operator_15(void)
{
    int i; int near; register int bank;
    for (i = 0; i < 9; i++) { kept = left[i]; mix(kept >= 32767); } mix(sizeof(kept >= 32767)); show(' ');
    for (i = 0; i < 9; i++) { kept = left[i]; mix((-1) >= kept); } mix(sizeof((-1) >= kept)); show(' ');
    for (i = 0; i < 9; i++) {  mix(left[i] >= 1u); } mix(sizeof(left[i] >= 1u)); show(' ');
    for (i = 0; i < 9; i++) {  mix(65535u >= left[i]); } mix(sizeof(65535u >= left[i])); show(' ');
    for (i = 0; i < 9; i++) { near = left[i]; mix(near >= 1L); } mix(sizeof(near >= 1L)); show(' ');
    for (i = 0; i < 9; i++) { near = left[i]; mix(1L >= near); } mix(sizeof(1L >= near)); show(' ');
    for (i = 0; i < 9; i++) { bank = left[i]; mix(bank >= 4294967295UL); } mix(sizeof(bank >= 4294967295UL)); show(' ');
    for (i = 0; i < 9; i++) { bank = left[i]; mix(65535UL >= bank); } mix(sizeof(65535UL >= bank)); show(' ');
    putchar(10);
}
int main(void)
{
    operator_0();
    operator_1();
    operator_2();
    operator_3();
    operator_4();
    operator_5();
    operator_6();
    operator_7();
    operator_8();
    operator_9();
    operator_10();
    operator_11();
    operator_12();
    operator_13();
    operator_14();
    operator_15();
    return 0;
}
