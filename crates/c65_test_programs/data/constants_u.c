int putchar(int c);
static unsigned long sum;
static void mix(unsigned long v) { sum = sum + sum + sum + v; }
static void hex(unsigned long n, int digits) { if (digits > 1) hex(n >> 4, digits - 1); putchar("0123456789abcdef"[n & 15]); }
static void show(int end) { hex(sum, 8); putchar(end); sum = 0; }
static unsigned int left[] = { 0u, 1u, 16u, 127u, 255u, 32768u, 40000u, 65535u };
static unsigned int kept;
static void operator_0(void)
{
    int i; unsigned int near; register unsigned int bank;
    for (i = 0; i < 8; i++) {  mix(left[i] + (-32767 - 1)); } mix(sizeof(left[i] + (-32767 - 1))); show(' ');
    for (i = 0; i < 8; i++) {  mix(left[i] + 1); } mix(sizeof(left[i] + 1)); show(' ');
    for (i = 0; i < 8; i++) {  mix(left[i] + (-257)); } mix(sizeof(left[i] + (-257))); show(' ');
    for (i = 0; i < 8; i++) {  mix((-1) + left[i]); } mix(sizeof((-1) + left[i])); show(' ');
    for (i = 0; i < 8; i++) { near = left[i]; mix(near + 255u); } mix(sizeof(near + 255u)); show(' ');
    for (i = 0; i < 8; i++) { near = left[i]; mix(near + 1u); } mix(sizeof(near + 1u)); show(' ');
    for (i = 0; i < 8; i++) { near = left[i]; mix(near + 0u); } mix(sizeof(near + 0u)); show(' ');
    for (i = 0; i < 8; i++) { near = left[i]; mix(16u + near); } mix(sizeof(16u + near)); show(' ');
    for (i = 0; i < 8; i++) { bank = left[i]; mix(bank + 65535L); } mix(sizeof(bank + 65535L)); show(' ');
    for (i = 0; i < 8; i++) { bank = left[i]; mix(bank + (-2147483647L - 1)); } mix(sizeof(bank + (-2147483647L - 1))); show(' ');
    for (i = 0; i < 8; i++) { bank = left[i]; mix(bank + 65536L); } mix(sizeof(bank + 65536L)); show(' ');
    for (i = 0; i < 8; i++) { bank = left[i]; mix(1L + bank); } mix(sizeof(1L + bank)); show(' ');
    for (i = 0; i < 8; i++) { kept = left[i]; mix(kept + 0UL); } mix(sizeof(kept + 0UL)); show(' ');
    for (i = 0; i < 8; i++) { kept = left[i]; mix(kept + 2147483647UL); } mix(sizeof(kept + 2147483647UL)); show(' ');
    for (i = 0; i < 8; i++) { kept = left[i]; mix(kept + 65535UL); } mix(sizeof(kept + 65535UL)); show(' ');
    for (i = 0; i < 8; i++) { kept = left[i]; mix(1UL + kept); } mix(sizeof(1UL + kept)); show(' ');
    putchar(10);
}
static void operator_1(void)
{
    int i; unsigned int near; register unsigned int bank;
    for (i = 0; i < 8; i++) { near = left[i]; mix(near - 0); } mix(sizeof(near - 0)); show(' ');
    for (i = 0; i < 8; i++) { near = left[i]; mix(near - (-128)); } mix(sizeof(near - (-128))); show(' ');
    for (i = 0; i < 8; i++) { near = left[i]; mix(near - 32767); } mix(sizeof(near - 32767)); show(' ');
    for (i = 0; i < 8; i++) { near = left[i]; mix(32767 - near); } mix(sizeof(32767 - near)); show(' ');
    for (i = 0; i < 8; i++) { bank = left[i]; mix(bank - 32768u); } mix(sizeof(bank - 32768u)); show(' ');
    for (i = 0; i < 8; i++) { bank = left[i]; mix(bank - 65535u); } mix(sizeof(bank - 65535u)); show(' ');
    for (i = 0; i < 8; i++) { bank = left[i]; mix(bank - 127u); } mix(sizeof(bank - 127u)); show(' ');
    for (i = 0; i < 8; i++) { bank = left[i]; mix(0u - bank); } mix(sizeof(0u - bank)); show(' ');
    for (i = 0; i < 8; i++) { kept = left[i]; mix(kept - 0L); } mix(sizeof(kept - 0L)); show(' ');
    for (i = 0; i < 8; i++) { kept = left[i]; mix(kept - (-2147483647L - 1)); } mix(sizeof(kept - (-2147483647L - 1))); show(' ');
    for (i = 0; i < 8; i++) { kept = left[i]; mix(kept - (-1L)); } mix(sizeof(kept - (-1L))); show(' ');
    for (i = 0; i < 8; i++) { kept = left[i]; mix((-2147483647L - 1) - kept); } mix(sizeof((-2147483647L - 1) - kept)); show(' ');
    for (i = 0; i < 8; i++) {  mix(left[i] - 65535UL); } mix(sizeof(left[i] - 65535UL)); show(' ');
    for (i = 0; i < 8; i++) {  mix(left[i] - 4294967295UL); } mix(sizeof(left[i] - 4294967295UL)); show(' ');
    for (i = 0; i < 8; i++) {  mix(left[i] - 31UL); } mix(sizeof(left[i] - 31UL)); show(' ');
    for (i = 0; i < 8; i++) {  mix(65536UL - left[i]); } mix(sizeof(65536UL - left[i])); show(' ');
    putchar(10);
}
static void operator_2(void)
{
    int i; unsigned int near; register unsigned int bank;
    for (i = 0; i < 8; i++) { bank = left[i]; mix(bank * 1); } mix(sizeof(bank * 1)); show(' ');
    for (i = 0; i < 8; i++) { bank = left[i]; mix((-128) * bank); } mix(sizeof((-128) * bank)); show(' ');
    for (i = 0; i < 8; i++) { kept = left[i]; mix(kept * 255u); } mix(sizeof(kept * 255u)); show(' ');
    for (i = 0; i < 8; i++) { kept = left[i]; mix(16u * kept); } mix(sizeof(16u * kept)); show(' ');
    for (i = 0; i < 8; i++) {  mix(left[i] * (-2147483647L - 1)); } mix(sizeof(left[i] * (-2147483647L - 1))); show(' ');
    for (i = 0; i < 8; i++) {  mix(65536L * left[i]); } mix(sizeof(65536L * left[i])); show(' ');
    for (i = 0; i < 8; i++) { near = left[i]; mix(near * 31UL); } mix(sizeof(near * 31UL)); show(' ');
    for (i = 0; i < 8; i++) { near = left[i]; mix(31UL * near); } mix(sizeof(31UL * near)); show(' ');
    putchar(10);
}
static void operator_3(void)
{
    int i; unsigned int near; register unsigned int bank;
    for (i = 0; i < 8; i++) { kept = left[i]; mix(kept / (-257)); } mix(sizeof(kept / (-257))); show(' ');
    for (i = 0; i < 8; i++) { kept = left[i]; if (kept == 1u || kept == 16u || kept == 127u || kept == 255u || kept == 32768u || kept == 40000u || kept == 65535u) mix(32767 / kept); } mix(sizeof(32767 / kept)); show(' ');
    for (i = 0; i < 8; i++) {  mix(left[i] / 40000u); } mix(sizeof(left[i] / 40000u)); show(' ');
    for (i = 0; i < 8; i++) {  if (left[i] == 1u || left[i] == 16u || left[i] == 127u || left[i] == 255u || left[i] == 32768u || left[i] == 40000u || left[i] == 65535u) mix(65535u / left[i]); } mix(sizeof(65535u / left[i])); show(' ');
    for (i = 0; i < 8; i++) { near = left[i]; mix(near / 255L); } mix(sizeof(near / 255L)); show(' ');
    for (i = 0; i < 8; i++) { near = left[i]; if (near == 1u || near == 16u || near == 127u || near == 255u || near == 32768u || near == 40000u || near == 65535u) mix(1L / near); } mix(sizeof(1L / near)); show(' ');
    for (i = 0; i < 8; i++) { bank = left[i]; mix(bank / 65536UL); } mix(sizeof(bank / 65536UL)); show(' ');
    for (i = 0; i < 8; i++) { bank = left[i]; if (bank == 1u || bank == 16u || bank == 127u || bank == 255u || bank == 32768u || bank == 40000u || bank == 65535u) mix(2147483648UL / bank); } mix(sizeof(2147483648UL / bank)); show(' ');
    putchar(10);
}
static void operator_4(void)
{
    int i; unsigned int near; register unsigned int bank;
    for (i = 0; i < 8; i++) {  mix(left[i] % (-257)); } mix(sizeof(left[i] % (-257))); show(' ');
    for (i = 0; i < 8; i++) {  if (left[i] == 1u || left[i] == 16u || left[i] == 127u || left[i] == 255u || left[i] == 32768u || left[i] == 40000u || left[i] == 65535u) mix((-128) % left[i]); } mix(sizeof((-128) % left[i])); show(' ');
    for (i = 0; i < 8; i++) { near = left[i]; mix(near % 40000u); } mix(sizeof(near % 40000u)); show(' ');
    for (i = 0; i < 8; i++) { near = left[i]; if (near == 1u || near == 16u || near == 127u || near == 255u || near == 32768u || near == 40000u || near == 65535u) mix(65535u % near); } mix(sizeof(65535u % near)); show(' ');
    for (i = 0; i < 8; i++) { bank = left[i]; mix(bank % 65535L); } mix(sizeof(bank % 65535L)); show(' ');
    for (i = 0; i < 8; i++) { bank = left[i]; if (bank == 1u || bank == 16u || bank == 127u || bank == 255u || bank == 32768u || bank == 40000u || bank == 65535u) mix((-32769L) % bank); } mix(sizeof((-32769L) % bank)); show(' ');
    for (i = 0; i < 8; i++) { kept = left[i]; mix(kept % 65535UL); } mix(sizeof(kept % 65535UL)); show(' ');
    for (i = 0; i < 8; i++) { kept = left[i]; if (kept == 1u || kept == 16u || kept == 127u || kept == 255u || kept == 32768u || kept == 40000u || kept == 65535u) mix(0UL % kept); } mix(sizeof(0UL % kept)); show(' ');
    putchar(10);
}
static void operator_5(void)
{
    int i; unsigned int near; register unsigned int bank;
    for (i = 0; i < 8; i++) { near = left[i]; mix(near << 0); } mix(sizeof(near << 0)); show(' ');
    for (i = 0; i < 8; i++) { near = left[i]; if (near == 0u || near == 1u) mix(256 << near); } mix(sizeof(256 << near)); show(' ');
    for (i = 0; i < 8; i++) { bank = left[i]; mix(bank << 15u); } mix(sizeof(bank << 15u)); show(' ');
    for (i = 0; i < 8; i++) { bank = left[i]; if (bank == 0u || bank == 1u) mix(255u << bank); } mix(sizeof(255u << bank)); show(' ');
    for (i = 0; i < 8; i++) { kept = left[i]; mix(kept << 0L); } mix(sizeof(kept << 0L)); show(' ');
    for (i = 0; i < 8; i++) { kept = left[i]; if (kept == 0u || kept == 1u || kept == 16u) mix((-32769L) << kept); } mix(sizeof((-32769L) << kept)); show(' ');
    for (i = 0; i < 8; i++) {  mix(left[i] << 1UL); } mix(sizeof(left[i] << 1UL)); show(' ');
    for (i = 0; i < 8; i++) {  if (left[i] == 0u || left[i] == 1u || left[i] == 16u) mix(65536UL << left[i]); } mix(sizeof(65536UL << left[i])); show(' ');
    putchar(10);
}
static void operator_6(void)
{
    int i; unsigned int near; register unsigned int bank;
    for (i = 0; i < 8; i++) { bank = left[i]; mix(bank >> 0); } mix(sizeof(bank >> 0)); show(' ');
    for (i = 0; i < 8; i++) { bank = left[i]; if (bank == 0u || bank == 1u) mix(32767 >> bank); } mix(sizeof(32767 >> bank)); show(' ');
    for (i = 0; i < 8; i++) { kept = left[i]; mix(kept >> 0u); } mix(sizeof(kept >> 0u)); show(' ');
    for (i = 0; i < 8; i++) { kept = left[i]; if (kept == 0u || kept == 1u) mix(40000u >> kept); } mix(sizeof(40000u >> kept)); show(' ');
    for (i = 0; i < 8; i++) {  mix(left[i] >> 8L); } mix(sizeof(left[i] >> 8L)); show(' ');
    for (i = 0; i < 8; i++) {  if (left[i] == 0u || left[i] == 1u || left[i] == 16u) mix(0L >> left[i]); } mix(sizeof(0L >> left[i])); show(' ');
    for (i = 0; i < 8; i++) { near = left[i]; mix(near >> 1UL); } mix(sizeof(near >> 1UL)); show(' ');
    for (i = 0; i < 8; i++) { near = left[i]; if (near == 0u || near == 1u || near == 16u) mix(0UL >> near); } mix(sizeof(0UL >> near)); show(' ');
    putchar(10);
}
static void operator_7(void)
{
    int i; unsigned int near; register unsigned int bank;
    for (i = 0; i < 8; i++) { kept = left[i]; mix(kept & 256); } mix(sizeof(kept & 256)); show(' ');
    for (i = 0; i < 8; i++) { kept = left[i]; mix((-257) & kept); } mix(sizeof((-257) & kept)); show(' ');
    for (i = 0; i < 8; i++) {  mix(left[i] & 1u); } mix(sizeof(left[i] & 1u)); show(' ');
    for (i = 0; i < 8; i++) {  mix(40000u & left[i]); } mix(sizeof(40000u & left[i])); show(' ');
    for (i = 0; i < 8; i++) { near = left[i]; mix(near & (-2147483647L - 1)); } mix(sizeof(near & (-2147483647L - 1))); show(' ');
    for (i = 0; i < 8; i++) { near = left[i]; mix(0L & near); } mix(sizeof(0L & near)); show(' ');
    for (i = 0; i < 8; i++) { bank = left[i]; mix(bank & 31UL); } mix(sizeof(bank & 31UL)); show(' ');
    for (i = 0; i < 8; i++) { bank = left[i]; mix(65535UL & bank); } mix(sizeof(65535UL & bank)); show(' ');
    putchar(10);
}
static void operator_8(void)
{
    int i; unsigned int near; register unsigned int bank;
    for (i = 0; i < 8; i++) {  mix(left[i] | (-32767 - 1)); } mix(sizeof(left[i] | (-32767 - 1))); show(' ');
    for (i = 0; i < 8; i++) {  mix((-32767 - 1) | left[i]); } mix(sizeof((-32767 - 1) | left[i])); show(' ');
    for (i = 0; i < 8; i++) { near = left[i]; mix(near | 32768u); } mix(sizeof(near | 32768u)); show(' ');
    for (i = 0; i < 8; i++) { near = left[i]; mix(127u | near); } mix(sizeof(127u | near)); show(' ');
    for (i = 0; i < 8; i++) { bank = left[i]; mix(bank | 0L); } mix(sizeof(bank | 0L)); show(' ');
    for (i = 0; i < 8; i++) { bank = left[i]; mix(2147483647L | bank); } mix(sizeof(2147483647L | bank)); show(' ');
    for (i = 0; i < 8; i++) { kept = left[i]; mix(kept | 2147483648UL); } mix(sizeof(kept | 2147483648UL)); show(' ');
    for (i = 0; i < 8; i++) { kept = left[i]; mix(65536UL | kept); } mix(sizeof(65536UL | kept)); show(' ');
    putchar(10);
}
static void operator_9(void)
{
    int i; unsigned int near; register unsigned int bank;
    for (i = 0; i < 8; i++) { near = left[i]; mix(near ^ (-128)); } mix(sizeof(near ^ (-128))); show(' ');
    for (i = 0; i < 8; i++) { near = left[i]; mix((-257) ^ near); } mix(sizeof((-257) ^ near)); show(' ');
    for (i = 0; i < 8; i++) { bank = left[i]; mix(bank ^ 1u); } mix(sizeof(bank ^ 1u)); show(' ');
    for (i = 0; i < 8; i++) { bank = left[i]; mix(255u ^ bank); } mix(sizeof(255u ^ bank)); show(' ');
    for (i = 0; i < 8; i++) { kept = left[i]; mix(kept ^ 65536L); } mix(sizeof(kept ^ 65536L)); show(' ');
    for (i = 0; i < 8; i++) { kept = left[i]; mix((-65537L) ^ kept); } mix(sizeof((-65537L) ^ kept)); show(' ');
    for (i = 0; i < 8; i++) {  mix(left[i] ^ 2147483647UL); } mix(sizeof(left[i] ^ 2147483647UL)); show(' ');
    for (i = 0; i < 8; i++) {  mix(31UL ^ left[i]); } mix(sizeof(31UL ^ left[i])); show(' ');
    putchar(10);
}
static void operator_10(void)
{
    int i; unsigned int near; register unsigned int bank;
    for (i = 0; i < 8; i++) { bank = left[i]; mix(bank == 1); } mix(sizeof(bank == 1)); show(' ');
    for (i = 0; i < 8; i++) { bank = left[i]; mix(15 == bank); } mix(sizeof(15 == bank)); show(' ');
    for (i = 0; i < 8; i++) { kept = left[i]; mix(kept == 32768u); } mix(sizeof(kept == 32768u)); show(' ');
    for (i = 0; i < 8; i++) { kept = left[i]; mix(16u == kept); } mix(sizeof(16u == kept)); show(' ');
    for (i = 0; i < 8; i++) {  mix(left[i] == 2147483647L); } mix(sizeof(left[i] == 2147483647L)); show(' ');
    for (i = 0; i < 8; i++) {  mix(1L == left[i]); } mix(sizeof(1L == left[i])); show(' ');
    for (i = 0; i < 8; i++) { near = left[i]; mix(near == 31UL); } mix(sizeof(near == 31UL)); show(' ');
    for (i = 0; i < 8; i++) { near = left[i]; mix(65535UL == near); } mix(sizeof(65535UL == near)); show(' ');
    putchar(10);
}
static void operator_11(void)
{
    int i; unsigned int near; register unsigned int bank;
    for (i = 0; i < 8; i++) { kept = left[i]; mix(kept != 15); } mix(sizeof(kept != 15)); show(' ');
    for (i = 0; i < 8; i++) { kept = left[i]; mix((-257) != kept); } mix(sizeof((-257) != kept)); show(' ');
    for (i = 0; i < 8; i++) {  mix(left[i] != 40000u); } mix(sizeof(left[i] != 40000u)); show(' ');
    for (i = 0; i < 8; i++) {  mix(32768u != left[i]); } mix(sizeof(32768u != left[i])); show(' ');
    for (i = 0; i < 8; i++) { near = left[i]; mix(near != (-1L)); } mix(sizeof(near != (-1L))); show(' ');
    for (i = 0; i < 8; i++) { near = left[i]; mix(2147483647L != near); } mix(sizeof(2147483647L != near)); show(' ');
    for (i = 0; i < 8; i++) { bank = left[i]; mix(bank != 65535UL); } mix(sizeof(bank != 65535UL)); show(' ');
    for (i = 0; i < 8; i++) { bank = left[i]; mix(31UL != bank); } mix(sizeof(31UL != bank)); show(' ');
    putchar(10);
}
static void operator_12(void)
{
    int i; unsigned int near; register unsigned int bank;
    for (i = 0; i < 8; i++) {  mix(left[i] < 0); } mix(sizeof(left[i] < 0)); show(' ');
    for (i = 0; i < 8; i++) {  mix(0 < left[i]); } mix(sizeof(0 < left[i])); show(' ');
    for (i = 0; i < 8; i++) { near = left[i]; mix(near < 16u); } mix(sizeof(near < 16u)); show(' ');
    for (i = 0; i < 8; i++) { near = left[i]; mix(1u < near); } mix(sizeof(1u < near)); show(' ');
    for (i = 0; i < 8; i++) { bank = left[i]; mix(bank < 0L); } mix(sizeof(bank < 0L)); show(' ');
    for (i = 0; i < 8; i++) { bank = left[i]; mix(0L < bank); } mix(sizeof(0L < bank)); show(' ');
    for (i = 0; i < 8; i++) { kept = left[i]; mix(kept < 65536UL); } mix(sizeof(kept < 65536UL)); show(' ');
    for (i = 0; i < 8; i++) { kept = left[i]; mix(2147483647UL < kept); } mix(sizeof(2147483647UL < kept)); show(' ');
    putchar(10);
}
static void operator_13(void)
{
    int i; unsigned int near; register unsigned int bank;
    for (i = 0; i < 8; i++) { near = left[i]; mix(near > (-257)); } mix(sizeof(near > (-257))); show(' ');
    for (i = 0; i < 8; i++) { near = left[i]; mix(32767 > near); } mix(sizeof(32767 > near)); show(' ');
    for (i = 0; i < 8; i++) { bank = left[i]; mix(bank > 32768u); } mix(sizeof(bank > 32768u)); show(' ');
    for (i = 0; i < 8; i++) { bank = left[i]; mix(127u > bank); } mix(sizeof(127u > bank)); show(' ');
    for (i = 0; i < 8; i++) { kept = left[i]; mix(kept > (-32769L)); } mix(sizeof(kept > (-32769L))); show(' ');
    for (i = 0; i < 8; i++) { kept = left[i]; mix((-32769L) > kept); } mix(sizeof((-32769L) > kept)); show(' ');
    for (i = 0; i < 8; i++) {  mix(left[i] > 65536UL); } mix(sizeof(left[i] > 65536UL)); show(' ');
    for (i = 0; i < 8; i++) {  mix(65536UL > left[i]); } mix(sizeof(65536UL > left[i])); show(' ');
    putchar(10);
}
static void operator_14(void)
{
    int i; unsigned int near; register unsigned int bank;
    for (i = 0; i < 8; i++) { bank = left[i]; mix(bank <= (-32767 - 1)); } mix(sizeof(bank <= (-32767 - 1))); show(' ');
    for (i = 0; i < 8; i++) { bank = left[i]; mix((-128) <= bank); } mix(sizeof((-128) <= bank)); show(' ');
    for (i = 0; i < 8; i++) { kept = left[i]; mix(kept <= 65535u); } mix(sizeof(kept <= 65535u)); show(' ');
    for (i = 0; i < 8; i++) { kept = left[i]; mix(127u <= kept); } mix(sizeof(127u <= kept)); show(' ');
    for (i = 0; i < 8; i++) {  mix(left[i] <= 0L); } mix(sizeof(left[i] <= 0L)); show(' ');
    for (i = 0; i < 8; i++) {  mix((-2147483647L - 1) <= left[i]); } mix(sizeof((-2147483647L - 1) <= left[i])); show(' ');
    for (i = 0; i < 8; i++) { near = left[i]; mix(near <= 2147483648UL); } mix(sizeof(near <= 2147483648UL)); show(' ');
    for (i = 0; i < 8; i++) { near = left[i]; mix(0UL <= near); } mix(sizeof(0UL <= near)); show(' ');
    putchar(10);
}
static void operator_15(void)
{
    int i; unsigned int near; register unsigned int bank;
    for (i = 0; i < 8; i++) { kept = left[i]; mix(kept >= (-1)); } mix(sizeof(kept >= (-1))); show(' ');
    for (i = 0; i < 8; i++) { kept = left[i]; mix((-128) >= kept); } mix(sizeof((-128) >= kept)); show(' ');
    for (i = 0; i < 8; i++) {  mix(left[i] >= 1u); } mix(sizeof(left[i] >= 1u)); show(' ');
    for (i = 0; i < 8; i++) {  mix(16u >= left[i]); } mix(sizeof(16u >= left[i])); show(' ');
    for (i = 0; i < 8; i++) { near = left[i]; mix(near >= 1L); } mix(sizeof(near >= 1L)); show(' ');
    for (i = 0; i < 8; i++) { near = left[i]; mix((-2147483647L - 1) >= near); } mix(sizeof((-2147483647L - 1) >= near)); show(' ');
    for (i = 0; i < 8; i++) { bank = left[i]; mix(bank >= 2147483648UL); } mix(sizeof(bank >= 2147483648UL)); show(' ');
    for (i = 0; i < 8; i++) { bank = left[i]; mix(65535UL >= bank); } mix(sizeof(65535UL >= bank)); show(' ');
    putchar(10);
}
int main(void)
{
    operator_0();
    operator_1();
    operator_2();
    operator_3();
    operator_4();
    operator_5();
    operator_6();
    operator_7();
    operator_8();
    operator_9();
    operator_10();
    operator_11();
    operator_12();
    operator_13();
    operator_14();
    operator_15();
    return 0;
}
