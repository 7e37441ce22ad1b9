int putchar(int c);
static unsigned long sum;
static void mix(unsigned long v) { sum = sum + sum + sum + v; }
static void hex(unsigned long n, int digits) { if (digits > 1) hex(n >> 4, digits - 1); putchar("0123456789abcdef"[n & 15]); }
static void show(int end) { hex(sum, 8); putchar(end); sum = 0; }
static signed char left[] = { ((signed char) -128), ((signed char) -127), ((signed char) -2), ((signed char) -1), ((signed char) 0), ((signed char) 1), ((signed char) 7), ((signed char) 127) };
static signed char kept;
static void operator_0(void)
{
    int i; signed char near; register signed char bank;
    for (i = 0; i < 8; i++) {  mix(left[i] + (-1)); } mix(sizeof(left[i] + (-1))); show(' ');
    for (i = 0; i < 8; i++) {  mix(left[i] + 15); } mix(sizeof(left[i] + 15)); show(' ');
    for (i = 0; i < 8; i++) {  mix(left[i] + 32767); } mix(sizeof(left[i] + 32767)); show(' ');
    for (i = 0; i < 8; i++) {  mix(0 + left[i]); } mix(sizeof(0 + left[i])); show(' ');
    for (i = 0; i < 8; i++) { near = left[i]; mix(near + 0u); } mix(sizeof(near + 0u)); show(' ');
    for (i = 0; i < 8; i++) { near = left[i]; mix(near + 65535u); } mix(sizeof(near + 65535u)); show(' ');
    for (i = 0; i < 8; i++) { near = left[i]; mix(near + 32768u); } mix(sizeof(near + 32768u)); show(' ');
    for (i = 0; i < 8; i++) { near = left[i]; mix(16u + near); } mix(sizeof(16u + near)); show(' ');
    for (i = 0; i < 8; i++) { bank = left[i]; mix(bank + 65535L); } mix(sizeof(bank + 65535L)); show(' ');
    for (i = 0; i < 8; i++) { bank = left[i]; mix(bank + 255L); } mix(sizeof(bank + 255L)); show(' ');
    for (i = 0; i < 8; i++) { bank = left[i]; mix(bank + (-32769L)); } mix(sizeof(bank + (-32769L))); show(' ');
    for (i = 0; i < 8; i++) { bank = left[i]; mix(255L + bank); } mix(sizeof(255L + bank)); show(' ');
    for (i = 0; i < 8; i++) { kept = left[i]; mix(kept + 65536UL); } mix(sizeof(kept + 65536UL)); show(' ');
    for (i = 0; i < 8; i++) { kept = left[i]; mix(kept + 65535UL); } mix(sizeof(kept + 65535UL)); show(' ');
    for (i = 0; i < 8; i++) { kept = left[i]; mix(kept + 31UL); } mix(sizeof(kept + 31UL)); show(' ');
    for (i = 0; i < 8; i++) { kept = left[i]; mix(31UL + kept); } mix(sizeof(31UL + kept)); show(' ');
    putchar(10);
}
static void operator_1(void)
{
    int i; signed char near; register signed char bank;
    for (i = 0; i < 8; i++) { near = left[i]; mix(near - 1); } mix(sizeof(near - 1)); show(' ');
    for (i = 0; i < 8; i++) { near = left[i]; mix(near - 32767); } mix(sizeof(near - 32767)); show(' ');
    for (i = 0; i < 8; i++) { near = left[i]; mix(near - (-128)); } mix(sizeof(near - (-128))); show(' ');
    for (i = 0; i < 8; i++) { near = left[i]; mix(15 - near); } mix(sizeof(15 - near)); show(' ');
    for (i = 0; i < 8; i++) { bank = left[i]; mix(bank - 127u); } mix(sizeof(bank - 127u)); show(' ');
    for (i = 0; i < 8; i++) { bank = left[i]; mix(bank - 40000u); } mix(sizeof(bank - 40000u)); show(' ');
    for (i = 0; i < 8; i++) { bank = left[i]; mix(bank - 32768u); } mix(sizeof(bank - 32768u)); show(' ');
    for (i = 0; i < 8; i++) { bank = left[i]; mix(1u - bank); } mix(sizeof(1u - bank)); show(' ');
    for (i = 0; i < 8; i++) { kept = left[i]; mix(kept - 255L); } mix(sizeof(kept - 255L)); show(' ');
    for (i = 0; i < 8; i++) { kept = left[i]; mix(kept - (-2147483647L - 1)); } mix(sizeof(kept - (-2147483647L - 1))); show(' ');
    for (i = 0; i < 8; i++) { kept = left[i]; mix(kept - 0L); } mix(sizeof(kept - 0L)); show(' ');
    for (i = 0; i < 8; i++) { kept = left[i]; mix(255L - kept); } mix(sizeof(255L - kept)); show(' ');
    for (i = 0; i < 8; i++) {  mix(left[i] - 65535UL); } mix(sizeof(left[i] - 65535UL)); show(' ');
    for (i = 0; i < 8; i++) {  mix(left[i] - 31UL); } mix(sizeof(left[i] - 31UL)); show(' ');
    for (i = 0; i < 8; i++) {  mix(left[i] - 65536UL); } mix(sizeof(left[i] - 65536UL)); show(' ');
    for (i = 0; i < 8; i++) {  mix(65536UL - left[i]); } mix(sizeof(65536UL - left[i])); show(' ');
    putchar(10);
}
static void operator_2(void)
{
    int i; signed char near; register signed char bank;
    for (i = 0; i < 8; i++) { bank = left[i]; mix(bank * (-257)); } mix(sizeof(bank * (-257))); show(' ');
    for (i = 0; i < 8; i++) { bank = left[i]; mix(0 * bank); } mix(sizeof(0 * bank)); show(' ');
    for (i = 0; i < 8; i++) { kept = left[i]; mix(kept * 65535u); } mix(sizeof(kept * 65535u)); show(' ');
    for (i = 0; i < 8; i++) { kept = left[i]; mix(0u * kept); } mix(sizeof(0u * kept)); show(' ');
    for (i = 0; i < 8; i++) {  mix(left[i] * 255L); } mix(sizeof(left[i] * 255L)); show(' ');
    for (i = 0; i < 8; i++) {  mix((-32769L) * left[i]); } mix(sizeof((-32769L) * left[i])); show(' ');
    for (i = 0; i < 8; i++) { near = left[i]; mix(near * 65535UL); } mix(sizeof(near * 65535UL)); show(' ');
    for (i = 0; i < 8; i++) { near = left[i]; mix(65535UL * near); } mix(sizeof(65535UL * near)); show(' ');
    putchar(10);
}
static void operator_3(void)
{
    int i; signed char near; register signed char bank;
    for (i = 0; i < 8; i++) { kept = left[i]; mix(kept / 256); } mix(sizeof(kept / 256)); show(' ');
    for (i = 0; i < 8; i++) { kept = left[i]; if (kept == ((signed char) -128) || kept == ((signed char) -127) || kept == ((signed char) -2) || kept == ((signed char) -1) || kept == ((signed char) 1) || kept == ((signed char) 7) || kept == ((signed char) 127)) mix(32767 / kept); } mix(sizeof(32767 / kept)); show(' ');
    for (i = 0; i < 8; i++) {  mix(left[i] / 255u); } mix(sizeof(left[i] / 255u)); show(' ');
    for (i = 0; i < 8; i++) {  if (left[i] == ((signed char) -128) || left[i] == ((signed char) -127) || left[i] == ((signed char) -2) || left[i] == ((signed char) -1) || left[i] == ((signed char) 1) || left[i] == ((signed char) 7) || left[i] == ((signed char) 127)) mix(1u / left[i]); } mix(sizeof(1u / left[i])); show(' ');
    for (i = 0; i < 8; i++) { near = left[i]; mix(near / 65535L); } mix(sizeof(near / 65535L)); show(' ');
    for (i = 0; i < 8; i++) { near = left[i]; if (near == ((signed char) -128) || near == ((signed char) -127) || near == ((signed char) -2) || near == ((signed char) -1) || near == ((signed char) 1) || near == ((signed char) 7) || near == ((signed char) 127)) mix(1L / near); } mix(sizeof(1L / near)); show(' ');
    for (i = 0; i < 8; i++) { bank = left[i]; mix(bank / 2147483648UL); } mix(sizeof(bank / 2147483648UL)); show(' ');
    for (i = 0; i < 8; i++) { bank = left[i]; if (bank == ((signed char) -128) || bank == ((signed char) -127) || bank == ((signed char) -2) || bank == ((signed char) -1) || bank == ((signed char) 1) || bank == ((signed char) 7) || bank == ((signed char) 127)) mix(2147483647UL / bank); } mix(sizeof(2147483647UL / bank)); show(' ');
    putchar(10);
}
static void operator_4(void)
{
    int i; signed char near; register signed char bank;
    for (i = 0; i < 8; i++) {  mix(left[i] % 256); } mix(sizeof(left[i] % 256)); show(' ');
    for (i = 0; i < 8; i++) {  if (left[i] == ((signed char) -128) || left[i] == ((signed char) -127) || left[i] == ((signed char) -2) || left[i] == ((signed char) -1) || left[i] == ((signed char) 1) || left[i] == ((signed char) 7) || left[i] == ((signed char) 127)) mix(1 % left[i]); } mix(sizeof(1 % left[i])); show(' ');
    for (i = 0; i < 8; i++) { near = left[i]; mix(near % 255u); } mix(sizeof(near % 255u)); show(' ');
    for (i = 0; i < 8; i++) { near = left[i]; if (near == ((signed char) -128) || near == ((signed char) -127) || near == ((signed char) -2) || near == ((signed char) -1) || near == ((signed char) 1) || near == ((signed char) 7) || near == ((signed char) 127)) mix(255u % near); } mix(sizeof(255u % near)); show(' ');
    for (i = 0; i < 8; i++) { bank = left[i]; mix(bank % 2147483647L); } mix(sizeof(bank % 2147483647L)); show(' ');
    for (i = 0; i < 8; i++) { bank = left[i]; if (bank == ((signed char) -128) || bank == ((signed char) -127) || bank == ((signed char) -2) || bank == ((signed char) -1) || bank == ((signed char) 1) || bank == ((signed char) 7) || bank == ((signed char) 127)) mix(0L % bank); } mix(sizeof(0L % bank)); show(' ');
    for (i = 0; i < 8; i++) { kept = left[i]; mix(kept % 2147483648UL); } mix(sizeof(kept % 2147483648UL)); show(' ');
    for (i = 0; i < 8; i++) { kept = left[i]; if (kept == ((signed char) -128) || kept == ((signed char) -127) || kept == ((signed char) -2) || kept == ((signed char) -1) || kept == ((signed char) 1) || kept == ((signed char) 7) || kept == ((signed char) 127)) mix(31UL % kept); } mix(sizeof(31UL % kept)); show(' ');
    putchar(10);
}
static void operator_5(void)
{
    int i; signed char near; register signed char bank;
    for (i = 0; i < 8; i++) { near = left[i]; mix(near << 7); } mix(sizeof(near << 7)); show(' ');
    for (i = 0; i < 8; i++) { near = left[i]; if (near == ((signed char) 0) || near == ((signed char) 1) || near == ((signed char) 7)) mix(256 << near); } mix(sizeof(256 << near)); show(' ');
    for (i = 0; i < 8; i++) { bank = left[i]; mix(bank << 15u); } mix(sizeof(bank << 15u)); show(' ');
    for (i = 0; i < 8; i++) { bank = left[i]; if (bank == ((signed char) 0) || bank == ((signed char) 1) || bank == ((signed char) 7)) mix(1u << bank); } mix(sizeof(1u << bank)); show(' ');
    for (i = 0; i < 8; i++) { kept = left[i]; mix(kept << 15L); } mix(sizeof(kept << 15L)); show(' ');
    for (i = 0; i < 8; i++) { kept = left[i]; if (kept == ((signed char) 0) || kept == ((signed char) 1) || kept == ((signed char) 7)) mix(65535L << kept); } mix(sizeof(65535L << kept)); show(' ');
    for (i = 0; i < 8; i++) {  mix(left[i] << 8UL); } mix(sizeof(left[i] << 8UL)); show(' ');
    for (i = 0; i < 8; i++) {  if (left[i] == ((signed char) 0) || left[i] == ((signed char) 1) || left[i] == ((signed char) 7)) mix(65535UL << left[i]); } mix(sizeof(65535UL << left[i])); show(' ');
    putchar(10);
}
static void operator_6(void)
{
    int i; signed char near; register signed char bank;
    for (i = 0; i < 8; i++) { bank = left[i]; mix(bank >> 0); } mix(sizeof(bank >> 0)); show(' ');
    for (i = 0; i < 8; i++) { bank = left[i]; if (bank == ((signed char) 0) || bank == ((signed char) 1) || bank == ((signed char) 7)) mix(1 >> bank); } mix(sizeof(1 >> bank)); show(' ');
    for (i = 0; i < 8; i++) { kept = left[i]; mix(kept >> 2u); } mix(sizeof(kept >> 2u)); show(' ');
    for (i = 0; i < 8; i++) { kept = left[i]; if (kept == ((signed char) 0) || kept == ((signed char) 1) || kept == ((signed char) 7)) mix(65535u >> kept); } mix(sizeof(65535u >> kept)); show(' ');
    for (i = 0; i < 8; i++) {  mix(left[i] >> 9L); } mix(sizeof(left[i] >> 9L)); show(' ');
    for (i = 0; i < 8; i++) {  if (left[i] == ((signed char) 0) || left[i] == ((signed char) 1) || left[i] == ((signed char) 7)) mix((-2147483647L - 1) >> left[i]); } mix(sizeof((-2147483647L - 1) >> left[i])); show(' ');
    for (i = 0; i < 8; i++) { near = left[i]; mix(near >> 0UL); } mix(sizeof(near >> 0UL)); show(' ');
    for (i = 0; i < 8; i++) { near = left[i]; if (near == ((signed char) 0) || near == ((signed char) 1) || near == ((signed char) 7)) mix(65536UL >> near); } mix(sizeof(65536UL >> near)); show(' ');
    putchar(10);
}
static void operator_7(void)
{
    int i; signed char near; register signed char bank;
    for (i = 0; i < 8; i++) { kept = left[i]; mix(kept & 32767); } mix(sizeof(kept & 32767)); show(' ');
    for (i = 0; i < 8; i++) { kept = left[i]; mix(256 & kept); } mix(sizeof(256 & kept)); show(' ');
    for (i = 0; i < 8; i++) {  mix(left[i] & 16u); } mix(sizeof(left[i] & 16u)); show(' ');
    for (i = 0; i < 8; i++) {  mix(32768u & left[i]); } mix(sizeof(32768u & left[i])); show(' ');
    for (i = 0; i < 8; i++) { near = left[i]; mix(near & (-65537L)); } mix(sizeof(near & (-65537L))); show(' ');
    for (i = 0; i < 8; i++) { near = left[i]; mix(65536L & near); } mix(sizeof(65536L & near)); show(' ');
    for (i = 0; i < 8; i++) { bank = left[i]; mix(bank & 2147483647UL); } mix(sizeof(bank & 2147483647UL)); show(' ');
    for (i = 0; i < 8; i++) { bank = left[i]; mix(1UL & bank); } mix(sizeof(1UL & bank)); show(' ');
    putchar(10);
}
static void operator_8(void)
{
    int i; signed char near; register signed char bank;
    for (i = 0; i < 8; i++) {  mix(left[i] | (-257)); } mix(sizeof(left[i] | (-257))); show(' ');
    for (i = 0; i < 8; i++) {  mix((-257) | left[i]); } mix(sizeof((-257) | left[i])); show(' ');
    for (i = 0; i < 8; i++) { near = left[i]; mix(near | 255u); } mix(sizeof(near | 255u)); show(' ');
    for (i = 0; i < 8; i++) { near = left[i]; mix(0u | near); } mix(sizeof(0u | near)); show(' ');
    for (i = 0; i < 8; i++) { bank = left[i]; mix(bank | 65536L); } mix(sizeof(bank | 65536L)); show(' ');
    for (i = 0; i < 8; i++) { bank = left[i]; mix(65536L | bank); } mix(sizeof(65536L | bank)); show(' ');
    for (i = 0; i < 8; i++) { kept = left[i]; mix(kept | 2147483648UL); } mix(sizeof(kept | 2147483648UL)); show(' ');
    for (i = 0; i < 8; i++) { kept = left[i]; mix(2147483647UL | kept); } mix(sizeof(2147483647UL | kept)); show(' ');
    putchar(10);
}
static void operator_9(void)
{
    int i; signed char near; register signed char bank;
    for (i = 0; i < 8; i++) { near = left[i]; mix(near ^ (-32767 - 1)); } mix(sizeof(near ^ (-32767 - 1))); show(' ');
    for (i = 0; i < 8; i++) { near = left[i]; mix((-257) ^ near); } mix(sizeof((-257) ^ near)); show(' ');
    for (i = 0; i < 8; i++) { bank = left[i]; mix(bank ^ 40000u); } mix(sizeof(bank ^ 40000u)); show(' ');
    for (i = 0; i < 8; i++) { bank = left[i]; mix(32768u ^ bank); } mix(sizeof(32768u ^ bank)); show(' ');
    for (i = 0; i < 8; i++) { kept = left[i]; mix(kept ^ (-2147483647L - 1)); } mix(sizeof(kept ^ (-2147483647L - 1))); show(' ');
    for (i = 0; i < 8; i++) { kept = left[i]; mix(1L ^ kept); } mix(sizeof(1L ^ kept)); show(' ');
    for (i = 0; i < 8; i++) {  mix(left[i] ^ 31UL); } mix(sizeof(left[i] ^ 31UL)); show(' ');
    for (i = 0; i < 8; i++) {  mix(2147483647UL ^ left[i]); } mix(sizeof(2147483647UL ^ left[i])); show(' ');
    putchar(10);
}
static void operator_10(void)
{
    int i; signed char near; register signed char bank;
    for (i = 0; i < 8; i++) { bank = left[i]; mix(bank == 0); } mix(sizeof(bank == 0)); show(' ');
    for (i = 0; i < 8; i++) { bank = left[i]; mix(256 == bank); } mix(sizeof(256 == bank)); show(' ');
    for (i = 0; i < 8; i++) { kept = left[i]; mix(kept == 16u); } mix(sizeof(kept == 16u)); show(' ');
    for (i = 0; i < 8; i++) { kept = left[i]; mix(1u == kept); } mix(sizeof(1u == kept)); show(' ');
    for (i = 0; i < 8; i++) {  mix(left[i] == 0L); } mix(sizeof(left[i] == 0L)); show(' ');
    for (i = 0; i < 8; i++) {  mix(255L == left[i]); } mix(sizeof(255L == left[i])); show(' ');
    for (i = 0; i < 8; i++) { near = left[i]; mix(near == 2147483647UL); } mix(sizeof(near == 2147483647UL)); show(' ');
    for (i = 0; i < 8; i++) { near = left[i]; mix(31UL == near); } mix(sizeof(31UL == near)); show(' ');
    putchar(10);
}
static void operator_11(void)
{
    int i; signed char near; register signed char bank;
    for (i = 0; i < 8; i++) { kept = left[i]; mix(kept != (-32767 - 1)); } mix(sizeof(kept != (-32767 - 1))); show(' ');
    for (i = 0; i < 8; i++) { kept = left[i]; mix(0 != kept); } mix(sizeof(0 != kept)); show(' ');
    for (i = 0; i < 8; i++) {  mix(left[i] != 65535u); } mix(sizeof(left[i] != 65535u)); show(' ');
    for (i = 0; i < 8; i++) {  mix(255u != left[i]); } mix(sizeof(255u != left[i])); show(' ');
    for (i = 0; i < 8; i++) { near = left[i]; mix(near != 65536L); } mix(sizeof(near != 65536L)); show(' ');
    for (i = 0; i < 8; i++) { near = left[i]; mix(2147483647L != near); } mix(sizeof(2147483647L != near)); show(' ');
    for (i = 0; i < 8; i++) { bank = left[i]; mix(bank != 2147483648UL); } mix(sizeof(bank != 2147483648UL)); show(' ');
    for (i = 0; i < 8; i++) { bank = left[i]; mix(2147483648UL != bank); } mix(sizeof(2147483648UL != bank)); show(' ');
    putchar(10);
}
static void operator_12(void)
{
    int i; signed char near; register signed char bank;
    for (i = 0; i < 8; i++) {  mix(left[i] < (-32767 - 1)); } mix(sizeof(left[i] < (-32767 - 1))); show(' ');
    for (i = 0; i < 8; i++) {  mix((-257) < left[i]); } mix(sizeof((-257) < left[i])); show(' ');
    for (i = 0; i < 8; i++) { near = left[i]; mix(near < 0u); } mix(sizeof(near < 0u)); show(' ');
    for (i = 0; i < 8; i++) { near = left[i]; mix(127u < near); } mix(sizeof(127u < near)); show(' ');
    for (i = 0; i < 8; i++) { bank = left[i]; mix(bank < 65536L); } mix(sizeof(bank < 65536L)); show(' ');
    for (i = 0; i < 8; i++) { bank = left[i]; mix((-2147483647L - 1) < bank); } mix(sizeof((-2147483647L - 1) < bank)); show(' ');
    for (i = 0; i < 8; i++) { kept = left[i]; mix(kept < 2147483648UL); } mix(sizeof(kept < 2147483648UL)); show(' ');
    for (i = 0; i < 8; i++) { kept = left[i]; mix(2147483647UL < kept); } mix(sizeof(2147483647UL < kept)); show(' ');
    putchar(10);
}
static void operator_13(void)
{
    int i; signed char near; register signed char bank;
    for (i = 0; i < 8; i++) { near = left[i]; mix(near > 0); } mix(sizeof(near > 0)); show(' ');
    for (i = 0; i < 8; i++) { near = left[i]; mix((-257) > near); } mix(sizeof((-257) > near)); show(' ');
    for (i = 0; i < 8; i++) { bank = left[i]; mix(bank > 1u); } mix(sizeof(bank > 1u)); show(' ');
    for (i = 0; i < 8; i++) { bank = left[i]; mix(1u > bank); } mix(sizeof(1u > bank)); show(' ');
    for (i = 0; i < 8; i++) { kept = left[i]; mix(kept > (-1L)); } mix(sizeof(kept > (-1L))); show(' ');
    for (i = 0; i < 8; i++) { kept = left[i]; mix(2147483647L > kept); } mix(sizeof(2147483647L > kept)); show(' ');
    for (i = 0; i < 8; i++) {  mix(left[i] > 1UL); } mix(sizeof(left[i] > 1UL)); show(' ');
    for (i = 0; i < 8; i++) {  mix(65535UL > left[i]); } mix(sizeof(65535UL > left[i])); show(' ');
    putchar(10);
}
static void operator_14(void)
{
    int i; signed char near; register signed char bank;
    for (i = 0; i < 8; i++) { bank = left[i]; mix(bank <= (-1)); } mix(sizeof(bank <= (-1))); show(' ');
    for (i = 0; i < 8; i++) { bank = left[i]; mix((-257) <= bank); } mix(sizeof((-257) <= bank)); show(' ');
    for (i = 0; i < 8; i++) { kept = left[i]; mix(kept <= 32768u); } mix(sizeof(kept <= 32768u)); show(' ');
    for (i = 0; i < 8; i++) { kept = left[i]; mix(65535u <= kept); } mix(sizeof(65535u <= kept)); show(' ');
    for (i = 0; i < 8; i++) {  mix(left[i] <= 0L); } mix(sizeof(left[i] <= 0L)); show(' ');
    for (i = 0; i < 8; i++) {  mix(0L <= left[i]); } mix(sizeof(0L <= left[i])); show(' ');
    for (i = 0; i < 8; i++) { near = left[i]; mix(near <= 65535UL); } mix(sizeof(near <= 65535UL)); show(' ');
    for (i = 0; i < 8; i++) { near = left[i]; mix(1UL <= near); } mix(sizeof(1UL <= near)); show(' ');
    putchar(10);
}
static void operator_15(void)
{
    int i; signed char near; register signed char bank;
    for (i = 0; i < 8; i++) { kept = left[i]; mix(kept >= (-257)); } mix(sizeof(kept >= (-257))); show(' ');
    for (i = 0; i < 8; i++) { kept = left[i]; mix((-1) >= kept); } mix(sizeof((-1) >= kept)); show(' ');
    for (i = 0; i < 8; i++) {  mix(left[i] >= 255u); } mix(sizeof(left[i] >= 255u)); show(' ');
    for (i = 0; i < 8; i++) {  mix(255u >= left[i]); } mix(sizeof(255u >= left[i])); show(' ');
    for (i = 0; i < 8; i++) { near = left[i]; mix(near >= 255L); } mix(sizeof(near >= 255L)); show(' ');
    for (i = 0; i < 8; i++) { near = left[i]; mix(2147483647L >= near); } mix(sizeof(2147483647L >= near)); show(' ');
    for (i = 0; i < 8; i++) { bank = left[i]; mix(bank >= 31UL); } mix(sizeof(bank >= 31UL)); show(' ');
    for (i = 0; i < 8; i++) { bank = left[i]; mix(1UL >= bank); } mix(sizeof(1UL >= bank)); show(' ');
    putchar(10);
}
int main(void)
{
    operator_0();
    operator_1();
    operator_2();
    operator_3();
    operator_4();
    operator_5();
    operator_6();
    operator_7();
    operator_8();
    operator_9();
    operator_10();
    operator_11();
    operator_12();
    operator_13();
    operator_14();
    operator_15();
    return 0;
}
