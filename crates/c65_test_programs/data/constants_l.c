int putchar(int c);
static unsigned long sum;
static void mix(unsigned long v) { sum = sum + sum + sum + v; }
static void hex(unsigned long n, int digits) { if (digits > 1) hex(n >> 4, digits - 1); putchar("0123456789abcdef"[n & 15]); }
static void show(int end) { hex(sum, 8); putchar(end); sum = 0; }
static long left[] = { (-2147483647L - 1), (-65537L), (-32769L), (-1L), 0L, 1L, 255L, 65535L, 65536L, 2147483647L };
static long kept;
static void operator_0(void)
{
    int i; long near; register long bank;
    for (i = 0; i < 10; i++) {  mix(left[i] + 15); } mix(sizeof(left[i] + 15)); show(' ');
    for (i = 0; i < 10; i++) {  mix(left[i] + (-1)); } mix(sizeof(left[i] + (-1))); show(' ');
    for (i = 0; i < 10; i++) {  mix(left[i] + (-257)); } mix(sizeof(left[i] + (-257))); show(' ');
    for (i = 0; i < 10; i++) {  mix(15 + left[i]); } mix(sizeof(15 + left[i])); show(' ');
    for (i = 0; i < 10; i++) { near = left[i]; mix(near + 32768u); } mix(sizeof(near + 32768u)); show(' ');
    for (i = 0; i < 10; i++) { near = left[i]; mix(near + 65535u); } mix(sizeof(near + 65535u)); show(' ');
    for (i = 0; i < 10; i++) { near = left[i]; mix(near + 127u); } mix(sizeof(near + 127u)); show(' ');
    for (i = 0; i < 10; i++) { near = left[i]; mix(65535u + near); } mix(sizeof(65535u + near)); show(' ');
    for (i = 0; i < 10; i++) { bank = left[i]; mix(bank + 0L); } mix(sizeof(bank + 0L)); show(' ');
    for (i = 0; i < 10; i++) { bank = left[i]; mix(bank + (-1L)); } mix(sizeof(bank + (-1L))); show(' ');
    for (i = 0; i < 10; i++) { bank = left[i]; mix(bank + 1L); } mix(sizeof(bank + 1L)); show(' ');
    for (i = 0; i < 10; i++) { bank = left[i]; mix(255L + bank); } mix(sizeof(255L + bank)); show(' ');
    for (i = 0; i < 10; i++) { kept = left[i]; mix(kept + 31UL); } mix(sizeof(kept + 31UL)); show(' ');
    for (i = 0; i < 10; i++) { kept = left[i]; mix(kept + 0UL); } mix(sizeof(kept + 0UL)); show(' ');
    for (i = 0; i < 10; i++) { kept = left[i]; mix(kept + 4294967295UL); } mix(sizeof(kept + 4294967295UL)); show(' ');
    for (i = 0; i < 10; i++) { kept = left[i]; mix(65536UL + kept); } mix(sizeof(65536UL + kept)); show(' ');
    putchar(10);
}
static void operator_1(void)
{
    int i; long near; register long bank;
    for (i = 0; i < 10; i++) { near = left[i]; mix(near - 256); } mix(sizeof(near - 256)); show(' ');
    for (i = 0; i < 10; i++) { near = left[i]; mix(near - (-1)); } mix(sizeof(near - (-1))); show(' ');
    for (i = 0; i < 10; i++) { near = left[i]; mix(near - 15); } mix(sizeof(near - 15)); show(' ');
    for (i = 0; i < 10; i++) { near = left[i]; mix(32767 - near); } mix(sizeof(32767 - near)); show(' ');
    for (i = 0; i < 10; i++) { bank = left[i]; mix(bank - 0u); } mix(sizeof(bank - 0u)); show(' ');
    for (i = 0; i < 10; i++) { bank = left[i]; mix(bank - 255u); } mix(sizeof(bank - 255u)); show(' ');
    for (i = 0; i < 10; i++) { bank = left[i]; mix(bank - 40000u); } mix(sizeof(bank - 40000u)); show(' ');
    for (i = 0; i < 10; i++) { bank = left[i]; mix(255u - bank); } mix(sizeof(255u - bank)); show(' ');
    for (i = 0; i < 10; i++) { kept = left[i]; mix(kept - 65535L); } mix(sizeof(kept - 65535L)); show(' ');
    for (i = 0; i < 10; i++) { kept = left[i]; mix(kept - (-2147483647L - 1)); } mix(sizeof(kept - (-2147483647L - 1))); show(' ');
    for (i = 0; i < 10; i++) { kept = left[i]; mix(kept - 1L); } mix(sizeof(kept - 1L)); show(' ');
    for (i = 0; i < 10; i++) { kept = left[i]; mix((-2147483647L - 1) - kept); } mix(sizeof((-2147483647L - 1) - kept)); show(' ');
    for (i = 0; i < 10; i++) {  mix(left[i] - 65535UL); } mix(sizeof(left[i] - 65535UL)); show(' ');
    for (i = 0; i < 10; i++) {  mix(left[i] - 2147483648UL); } mix(sizeof(left[i] - 2147483648UL)); show(' ');
    for (i = 0; i < 10; i++) {  mix(left[i] - 31UL); } mix(sizeof(left[i] - 31UL)); show(' ');
    for (i = 0; i < 10; i++) {  mix(1UL - left[i]); } mix(sizeof(1UL - left[i])); show(' ');
    putchar(10);
}
static void operator_2(void)
{
    int i; long near; register long bank;
    for (i = 0; i < 10; i++) { bank = left[i]; mix(bank * 0); } mix(sizeof(bank * 0)); show(' ');
    for (i = 0; i < 10; i++) { bank = left[i]; mix((-257) * bank); } mix(sizeof((-257) * bank)); show(' ');
    for (i = 0; i < 10; i++) { kept = left[i]; mix(kept * 127u); } mix(sizeof(kept * 127u)); show(' ');
    for (i = 0; i < 10; i++) { kept = left[i]; mix(0u * kept); } mix(sizeof(0u * kept)); show(' ');
    for (i = 0; i < 10; i++) {  mix(left[i] * 2147483647L); } mix(sizeof(left[i] * 2147483647L)); show(' ');
    for (i = 0; i < 10; i++) {  mix((-65537L) * left[i]); } mix(sizeof((-65537L) * left[i])); show(' ');
    for (i = 0; i < 10; i++) { near = left[i]; mix(near * 2147483647UL); } mix(sizeof(near * 2147483647UL)); show(' ');
    for (i = 0; i < 10; i++) { near = left[i]; mix(4294967295UL * near); } mix(sizeof(4294967295UL * near)); show(' ');
    putchar(10);
}
static void operator_3(void)
{
    int i; long near; register long bank;
    for (i = 0; i < 10; i++) { kept = left[i]; mix(kept / 256); } mix(sizeof(kept / 256)); show(' ');
    for (i = 0; i < 10; i++) { kept = left[i]; if (kept == (-2147483647L - 1) || kept == (-65537L) || kept == (-32769L) || kept == (-1L) || kept == 1L || kept == 255L || kept == 65535L || kept == 65536L || kept == 2147483647L) mix(256 / kept); } mix(sizeof(256 / kept)); show(' ');
    for (i = 0; i < 10; i++) {  mix(left[i] / 1u); } mix(sizeof(left[i] / 1u)); show(' ');
    for (i = 0; i < 10; i++) {  if (left[i] == (-2147483647L - 1) || left[i] == (-65537L) || left[i] == (-32769L) || left[i] == (-1L) || left[i] == 1L || left[i] == 255L || left[i] == 65535L || left[i] == 65536L || left[i] == 2147483647L) mix(65535u / left[i]); } mix(sizeof(65535u / left[i])); show(' ');
    for (i = 0; i < 10; i++) { near = left[i]; mix(near / 65535L); } mix(sizeof(near / 65535L)); show(' ');
    for (i = 0; i < 10; i++) { near = left[i]; if (near == (-2147483647L - 1) || near == (-65537L) || near == (-32769L) || near == (-1L) || near == 1L || near == 255L || near == 65535L || near == 65536L || near == 2147483647L) mix(65536L / near); } mix(sizeof(65536L / near)); show(' ');
    for (i = 0; i < 10; i++) { bank = left[i]; mix(bank / 1UL); } mix(sizeof(bank / 1UL)); show(' ');
    for (i = 0; i < 10; i++) { bank = left[i]; if (bank == (-2147483647L - 1) || bank == (-65537L) || bank == (-32769L) || bank == (-1L) || bank == 1L || bank == 255L || bank == 65535L || bank == 65536L || bank == 2147483647L) mix(1UL / bank); } mix(sizeof(1UL / bank)); show(' ');
    putchar(10);
}
static void operator_4(void)
{
    int i; long near; register long bank;
    for (i = 0; i < 10; i++) {  mix(left[i] % 256); } mix(sizeof(left[i] % 256)); show(' ');
    for (i = 0; i < 10; i++) {  if (left[i] == (-2147483647L - 1) || left[i] == (-65537L) || left[i] == (-32769L) || left[i] == (-1L) || left[i] == 1L || left[i] == 255L || left[i] == 65535L || left[i] == 65536L || left[i] == 2147483647L) mix((-1) % left[i]); } mix(sizeof((-1) % left[i])); show(' ');
    for (i = 0; i < 10; i++) { near = left[i]; mix(near % 127u); } mix(sizeof(near % 127u)); show(' ');
    for (i = 0; i < 10; i++) { near = left[i]; if (near == (-2147483647L - 1) || near == (-65537L) || near == (-32769L) || near == (-1L) || near == 1L || near == 255L || near == 65535L || near == 65536L || near == 2147483647L) mix(16u % near); } mix(sizeof(16u % near)); show(' ');
    for (i = 0; i < 10; i++) { bank = left[i]; mix(bank % 65536L); } mix(sizeof(bank % 65536L)); show(' ');
    for (i = 0; i < 10; i++) { bank = left[i]; if (bank == (-2147483647L - 1) || bank == (-65537L) || bank == (-32769L) || bank == (-1L) || bank == 1L || bank == 255L || bank == 65535L || bank == 65536L || bank == 2147483647L) mix((-32769L) % bank); } mix(sizeof((-32769L) % bank)); show(' ');
    for (i = 0; i < 10; i++) { kept = left[i]; mix(kept % 2147483648UL); } mix(sizeof(kept % 2147483648UL)); show(' ');
    for (i = 0; i < 10; i++) { kept = left[i]; if (kept == (-2147483647L - 1) || kept == (-65537L) || kept == (-32769L) || kept == (-1L) || kept == 1L || kept == 255L || kept == 65535L || kept == 65536L || kept == 2147483647L) mix(65535UL % kept); } mix(sizeof(65535UL % kept)); show(' ');
    putchar(10);
}
static void operator_5(void)
{
    int i; long near; register long bank;
    for (i = 0; i < 10; i++) { near = left[i]; mix(near << 1); } mix(sizeof(near << 1)); show(' ');
    for (i = 0; i < 10; i++) { near = left[i]; if (near == 0L || near == 1L) mix((-1) << near); } mix(sizeof((-1) << near)); show(' ');
    for (i = 0; i < 10; i++) { bank = left[i]; mix(bank << 24u); } mix(sizeof(bank << 24u)); show(' ');
    for (i = 0; i < 10; i++) { bank = left[i]; if (bank == 0L || bank == 1L) mix(65535u << bank); } mix(sizeof(65535u << bank)); show(' ');
    for (i = 0; i < 10; i++) { kept = left[i]; mix(kept << 1L); } mix(sizeof(kept << 1L)); show(' ');
    for (i = 0; i < 10; i++) { kept = left[i]; if (kept == 0L || kept == 1L) mix((-32769L) << kept); } mix(sizeof((-32769L) << kept)); show(' ');
    for (i = 0; i < 10; i++) {  mix(left[i] << 8UL); } mix(sizeof(left[i] << 8UL)); show(' ');
    for (i = 0; i < 10; i++) {  if (left[i] == 0L || left[i] == 1L) mix(2147483647UL << left[i]); } mix(sizeof(2147483647UL << left[i])); show(' ');
    putchar(10);
}
static void operator_6(void)
{
    int i; long near; register long bank;
    for (i = 0; i < 10; i++) { bank = left[i]; mix(bank >> 15); } mix(sizeof(bank >> 15)); show(' ');
    for (i = 0; i < 10; i++) { bank = left[i]; if (bank == 0L || bank == 1L) mix(32767 >> bank); } mix(sizeof(32767 >> bank)); show(' ');
    for (i = 0; i < 10; i++) { kept = left[i]; mix(kept >> 0u); } mix(sizeof(kept >> 0u)); show(' ');
    for (i = 0; i < 10; i++) { kept = left[i]; if (kept == 0L || kept == 1L) mix(32768u >> kept); } mix(sizeof(32768u >> kept)); show(' ');
    for (i = 0; i < 10; i++) {  mix(left[i] >> 7L); } mix(sizeof(left[i] >> 7L)); show(' ');
    for (i = 0; i < 10; i++) {  if (left[i] == 0L || left[i] == 1L) mix(1L >> left[i]); } mix(sizeof(1L >> left[i])); show(' ');
    for (i = 0; i < 10; i++) { near = left[i]; mix(near >> 7UL); } mix(sizeof(near >> 7UL)); show(' ');
    for (i = 0; i < 10; i++) { near = left[i]; if (near == 0L || near == 1L) mix(1UL >> near); } mix(sizeof(1UL >> near)); show(' ');
    putchar(10);
}
static void operator_7(void)
{
    int i; long near; register long bank;
    for (i = 0; i < 10; i++) { kept = left[i]; mix(kept & 0); } mix(sizeof(kept & 0)); show(' ');
    for (i = 0; i < 10; i++) { kept = left[i]; mix(32767 & kept); } mix(sizeof(32767 & kept)); show(' ');
    for (i = 0; i < 10; i++) {  mix(left[i] & 40000u); } mix(sizeof(left[i] & 40000u)); show(' ');
    for (i = 0; i < 10; i++) {  mix(255u & left[i]); } mix(sizeof(255u & left[i])); show(' ');
    for (i = 0; i < 10; i++) { near = left[i]; mix(near & 65535L); } mix(sizeof(near & 65535L)); show(' ');
    for (i = 0; i < 10; i++) { near = left[i]; mix(1L & near); } mix(sizeof(1L & near)); show(' ');
    for (i = 0; i < 10; i++) { bank = left[i]; mix(bank & 1UL); } mix(sizeof(bank & 1UL)); show(' ');
    for (i = 0; i < 10; i++) { bank = left[i]; mix(0UL & bank); } mix(sizeof(0UL & bank)); show(' ');
    putchar(10);
}
static void operator_8(void)
{
    int i; long near; register long bank;
    for (i = 0; i < 10; i++) {  mix(left[i] | 32767); } mix(sizeof(left[i] | 32767)); show(' ');
    for (i = 0; i < 10; i++) {  mix((-257) | left[i]); } mix(sizeof((-257) | left[i])); show(' ');
    for (i = 0; i < 10; i++) { near = left[i]; mix(near | 0u); } mix(sizeof(near | 0u)); show(' ');
    for (i = 0; i < 10; i++) { near = left[i]; mix(16u | near); } mix(sizeof(16u | near)); show(' ');
    for (i = 0; i < 10; i++) { bank = left[i]; mix(bank | (-1L)); } mix(sizeof(bank | (-1L))); show(' ');
    for (i = 0; i < 10; i++) { bank = left[i]; mix(2147483647L | bank); } mix(sizeof(2147483647L | bank)); show(' ');
    for (i = 0; i < 10; i++) { kept = left[i]; mix(kept | 2147483648UL); } mix(sizeof(kept | 2147483648UL)); show(' ');
    for (i = 0; i < 10; i++) { kept = left[i]; mix(4294967295UL | kept); } mix(sizeof(4294967295UL | kept)); show(' ');
    putchar(10);
}
static void operator_9(void)
{
    int i; long near; register long bank;
    for (i = 0; i < 10; i++) { near = left[i]; mix(near ^ (-1)); } mix(sizeof(near ^ (-1))); show(' ');
    for (i = 0; i < 10; i++) { near = left[i]; mix((-128) ^ near); } mix(sizeof((-128) ^ near)); show(' ');
    for (i = 0; i < 10; i++) { bank = left[i]; mix(bank ^ 0u); } mix(sizeof(bank ^ 0u)); show(' ');
    for (i = 0; i < 10; i++) { bank = left[i]; mix(0u ^ bank); } mix(sizeof(0u ^ bank)); show(' ');
    for (i = 0; i < 10; i++) { kept = left[i]; mix(kept ^ 0L); } mix(sizeof(kept ^ 0L)); show(' ');
    for (i = 0; i < 10; i++) { kept = left[i]; mix(2147483647L ^ kept); } mix(sizeof(2147483647L ^ kept)); show(' ');
    for (i = 0; i < 10; i++) {  mix(left[i] ^ 0UL); } mix(sizeof(left[i] ^ 0UL)); show(' ');
    for (i = 0; i < 10; i++) {  mix(0UL ^ left[i]); } mix(sizeof(0UL ^ left[i])); show(' ');
    putchar(10);
}
static void operator_10(void)
{
    int i; long near; register long bank;
    for (i = 0; i < 10; i++) { bank = left[i]; mix(bank == 256); } mix(sizeof(bank == 256)); show(' ');
    for (i = 0; i < 10; i++) { bank = left[i]; mix((-257) == bank); } mix(sizeof((-257) == bank)); show(' ');
    for (i = 0; i < 10; i++) { kept = left[i]; mix(kept == 16u); } mix(sizeof(kept == 16u)); show(' ');
    for (i = 0; i < 10; i++) { kept = left[i]; mix(16u == kept); } mix(sizeof(16u == kept)); show(' ');
    for (i = 0; i < 10; i++) {  mix(left[i] == 0L); } mix(sizeof(left[i] == 0L)); show(' ');
    for (i = 0; i < 10; i++) {  mix(1L == left[i]); } mix(sizeof(1L == left[i])); show(' ');
    for (i = 0; i < 10; i++) { near = left[i]; mix(near == 65535UL); } mix(sizeof(near == 65535UL)); show(' ');
    for (i = 0; i < 10; i++) { near = left[i]; mix(65535UL == near); } mix(sizeof(65535UL == near)); show(' ');
    putchar(10);
}
static void operator_11(void)
{
    int i; long near; register long bank;
    for (i = 0; i < 10; i++) { kept = left[i]; mix(kept != (-32767 - 1)); } mix(sizeof(kept != (-32767 - 1))); show(' ');
    for (i = 0; i < 10; i++) { kept = left[i]; mix(0 != kept); } mix(sizeof(0 != kept)); show(' ');
    for (i = 0; i < 10; i++) {  mix(left[i] != 16u); } mix(sizeof(left[i] != 16u)); show(' ');
    for (i = 0; i < 10; i++) {  mix(40000u != left[i]); } mix(sizeof(40000u != left[i])); show(' ');
    for (i = 0; i < 10; i++) { near = left[i]; mix(near != 1L); } mix(sizeof(near != 1L)); show(' ');
    for (i = 0; i < 10; i++) { near = left[i]; mix((-32769L) != near); } mix(sizeof((-32769L) != near)); show(' ');
    for (i = 0; i < 10; i++) { bank = left[i]; mix(bank != 2147483648UL); } mix(sizeof(bank != 2147483648UL)); show(' ');
    for (i = 0; i < 10; i++) { bank = left[i]; mix(4294967295UL != bank); } mix(sizeof(4294967295UL != bank)); show(' ');
    putchar(10);
}
static void operator_12(void)
{
    int i; long near; register long bank;
    for (i = 0; i < 10; i++) {  mix(left[i] < (-128)); } mix(sizeof(left[i] < (-128))); show(' ');
    for (i = 0; i < 10; i++) {  mix(15 < left[i]); } mix(sizeof(15 < left[i])); show(' ');
    for (i = 0; i < 10; i++) { near = left[i]; mix(near < 1u); } mix(sizeof(near < 1u)); show(' ');
    for (i = 0; i < 10; i++) { near = left[i]; mix(1u < near); } mix(sizeof(1u < near)); show(' ');
    for (i = 0; i < 10; i++) { bank = left[i]; mix(bank < 65535L); } mix(sizeof(bank < 65535L)); show(' ');
    for (i = 0; i < 10; i++) { bank = left[i]; mix((-65537L) < bank); } mix(sizeof((-65537L) < bank)); show(' ');
    for (i = 0; i < 10; i++) { kept = left[i]; mix(kept < 2147483648UL); } mix(sizeof(kept < 2147483648UL)); show(' ');
    for (i = 0; i < 10; i++) { kept = left[i]; mix(2147483647UL < kept); } mix(sizeof(2147483647UL < kept)); show(' ');
    putchar(10);
}
static void operator_13(void)
{
    int i; long near; register long bank;
    for (i = 0; i < 10; i++) { near = left[i]; mix(near > (-32767 - 1)); } mix(sizeof(near > (-32767 - 1))); show(' ');
    for (i = 0; i < 10; i++) { near = left[i]; mix((-128) > near); } mix(sizeof((-128) > near)); show(' ');
    for (i = 0; i < 10; i++) { bank = left[i]; mix(bank > 0u); } mix(sizeof(bank > 0u)); show(' ');
    for (i = 0; i < 10; i++) { bank = left[i]; mix(127u > bank); } mix(sizeof(127u > bank)); show(' ');
    for (i = 0; i < 10; i++) { kept = left[i]; mix(kept > 0L); } mix(sizeof(kept > 0L)); show(' ');
    for (i = 0; i < 10; i++) { kept = left[i]; mix(0L > kept); } mix(sizeof(0L > kept)); show(' ');
    for (i = 0; i < 10; i++) {  mix(left[i] > 31UL); } mix(sizeof(left[i] > 31UL)); show(' ');
    for (i = 0; i < 10; i++) {  mix(0UL > left[i]); } mix(sizeof(0UL > left[i])); show(' ');
    putchar(10);
}
static void operator_14(void)
{
    int i; long near; register long bank;
    for (i = 0; i < 10; i++) { bank = left[i]; mix(bank <= 0); } mix(sizeof(bank <= 0)); show(' ');
    for (i = 0; i < 10; i++) { bank = left[i]; mix(32767 <= bank); } mix(sizeof(32767 <= bank)); show(' ');
    for (i = 0; i < 10; i++) { kept = left[i]; mix(kept <= 16u); } mix(sizeof(kept <= 16u)); show(' ');
    for (i = 0; i < 10; i++) { kept = left[i]; mix(40000u <= kept); } mix(sizeof(40000u <= kept)); show(' ');
    for (i = 0; i < 10; i++) {  mix(left[i] <= (-32769L)); } mix(sizeof(left[i] <= (-32769L))); show(' ');
    for (i = 0; i < 10; i++) {  mix((-32769L) <= left[i]); } mix(sizeof((-32769L) <= left[i])); show(' ');
    for (i = 0; i < 10; i++) { near = left[i]; mix(near <= 65536UL); } mix(sizeof(near <= 65536UL)); show(' ');
    for (i = 0; i < 10; i++) { near = left[i]; mix(65536UL <= near); } mix(sizeof(65536UL <= near)); show(' ');
    putchar(10);
}
static void operator_15(void)
{
    int i; long near; register long bank;
    for (i = 0; i < 10; i++) { kept = left[i]; mix(kept >= (-32767 - 1)); } mix(sizeof(kept >= (-32767 - 1))); show(' ');
    for (i = 0; i < 10; i++) { kept = left[i]; mix(32767 >= kept); } mix(sizeof(32767 >= kept)); show(' ');
    for (i = 0; i < 10; i++) {  mix(left[i] >= 32768u); } mix(sizeof(left[i] >= 32768u)); show(' ');
    for (i = 0; i < 10; i++) {  mix(127u >= left[i]); } mix(sizeof(127u >= left[i])); show(' ');
    for (i = 0; i < 10; i++) { near = left[i]; mix(near >= 65536L); } mix(sizeof(near >= 65536L)); show(' ');
    for (i = 0; i < 10; i++) { near = left[i]; mix(0L >= near); } mix(sizeof(0L >= near)); show(' ');
    for (i = 0; i < 10; i++) { bank = left[i]; mix(bank >= 0UL); } mix(sizeof(bank >= 0UL)); show(' ');
    for (i = 0; i < 10; i++) { bank = left[i]; mix(2147483647UL >= bank); } mix(sizeof(2147483647UL >= bank)); show(' ');
    putchar(10);
}
int main(void)
{
    operator_0();
    operator_1();
    operator_2();
    operator_3();
    operator_4();
    operator_5();
    operator_6();
    operator_7();
    operator_8();
    operator_9();
    operator_10();
    operator_11();
    operator_12();
    operator_13();
    operator_14();
    operator_15();
    return 0;
}
