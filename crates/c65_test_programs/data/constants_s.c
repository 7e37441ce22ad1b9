int putchar(int c);
static unsigned long sum;
static void mix(unsigned long v) { sum = sum + sum + sum + v; }
static void hex(unsigned long n, int digits) { if (digits > 1) hex(n >> 4, digits - 1); putchar("0123456789abcdef"[n & 15]); }
static void show(int end) { hex(sum, 8); putchar(end); sum = 0; }
static short left[] = { ((short) -32768), ((short) -32767), ((short) -256), ((short) -1), ((short) 0), ((short) 3), ((short) 255), ((short) 32767) };
static short kept;
static void operator_0(void)
{
    int i; short near; register short bank;
    for (i = 0; i < 8; i++) {  mix(left[i] + 1); } mix(sizeof(left[i] + 1)); show(' ');
    for (i = 0; i < 8; i++) {  mix(left[i] + 0); } mix(sizeof(left[i] + 0)); show(' ');
    for (i = 0; i < 8; i++) {  mix(left[i] + 32767); } mix(sizeof(left[i] + 32767)); show(' ');
    for (i = 0; i < 8; i++) {  mix(32767 + left[i]); } mix(sizeof(32767 + left[i])); show(' ');
    for (i = 0; i < 8; i++) { near = left[i]; mix(near + 127u); } mix(sizeof(near + 127u)); show(' ');
    for (i = 0; i < 8; i++) { near = left[i]; mix(near + 255u); } mix(sizeof(near + 255u)); show(' ');
    for (i = 0; i < 8; i++) { near = left[i]; mix(near + 32768u); } mix(sizeof(near + 32768u)); show(' ');
    for (i = 0; i < 8; i++) { near = left[i]; mix(40000u + near); } mix(sizeof(40000u + near)); show(' ');
    for (i = 0; i < 8; i++) { bank = left[i]; mix(bank + (-2147483647L - 1)); } mix(sizeof(bank + (-2147483647L - 1))); show(' ');
    for (i = 0; i < 8; i++) { bank = left[i]; mix(bank + 65536L); } mix(sizeof(bank + 65536L)); show(' ');
    for (i = 0; i < 8; i++) { bank = left[i]; mix(bank + 1L); } mix(sizeof(bank + 1L)); show(' ');
    for (i = 0; i < 8; i++) { bank = left[i]; mix(65536L + bank); } mix(sizeof(65536L + bank)); show(' ');
    for (i = 0; i < 8; i++) { kept = left[i]; mix(kept + 31UL); } mix(sizeof(kept + 31UL)); show(' ');
    for (i = 0; i < 8; i++) { kept = left[i]; mix(kept + 65536UL); } mix(sizeof(kept + 65536UL)); show(' ');
    for (i = 0; i < 8; i++) { kept = left[i]; mix(kept + 4294967295UL); } mix(sizeof(kept + 4294967295UL)); show(' ');
    for (i = 0; i < 8; i++) { kept = left[i]; mix(65535UL + kept); } mix(sizeof(65535UL + kept)); show(' ');
    putchar(10);
}
static void operator_1(void)
{
    int i; short near; register short bank;
    for (i = 0; i < 8; i++) { near = left[i]; mix(near - 1); } mix(sizeof(near - 1)); show(' ');
    for (i = 0; i < 8; i++) { near = left[i]; mix(near - 256); } mix(sizeof(near - 256)); show(' ');
    for (i = 0; i < 8; i++) { near = left[i]; mix(near - (-1)); } mix(sizeof(near - (-1))); show(' ');
    for (i = 0; i < 8; i++) { near = left[i]; mix(256 - near); } mix(sizeof(256 - near)); show(' ');
    for (i = 0; i < 8; i++) { bank = left[i]; mix(bank - 16u); } mix(sizeof(bank - 16u)); show(' ');
    for (i = 0; i < 8; i++) { bank = left[i]; mix(bank - 40000u); } mix(sizeof(bank - 40000u)); show(' ');
    for (i = 0; i < 8; i++) { bank = left[i]; mix(bank - 0u); } mix(sizeof(bank - 0u)); show(' ');
    for (i = 0; i < 8; i++) { bank = left[i]; mix(65535u - bank); } mix(sizeof(65535u - bank)); show(' ');
    for (i = 0; i < 8; i++) { kept = left[i]; mix(kept - (-1L)); } mix(sizeof(kept - (-1L))); show(' ');
    for (i = 0; i < 8; i++) { kept = left[i]; mix(kept - 65536L); } mix(sizeof(kept - 65536L)); show(' ');
    for (i = 0; i < 8; i++) { kept = left[i]; mix(kept - (-32769L)); } mix(sizeof(kept - (-32769L))); show(' ');
    for (i = 0; i < 8; i++) { kept = left[i]; mix((-1L) - kept); } mix(sizeof((-1L) - kept)); show(' ');
    for (i = 0; i < 8; i++) {  mix(left[i] - 31UL); } mix(sizeof(left[i] - 31UL)); show(' ');
    for (i = 0; i < 8; i++) {  mix(left[i] - 1UL); } mix(sizeof(left[i] - 1UL)); show(' ');
    for (i = 0; i < 8; i++) {  mix(left[i] - 4294967295UL); } mix(sizeof(left[i] - 4294967295UL)); show(' ');
    for (i = 0; i < 8; i++) {  mix(0UL - left[i]); } mix(sizeof(0UL - left[i])); show(' ');
    putchar(10);
}
static void operator_2(void)
{
    int i; short near; register short bank;
    for (i = 0; i < 8; i++) { bank = left[i]; mix(bank * (-1)); } mix(sizeof(bank * (-1))); show(' ');
    for (i = 0; i < 8; i++) { bank = left[i]; mix((-257) * bank); } mix(sizeof((-257) * bank)); show(' ');
    for (i = 0; i < 8; i++) { kept = left[i]; mix(kept * 65535u); } mix(sizeof(kept * 65535u)); show(' ');
    for (i = 0; i < 8; i++) { kept = left[i]; mix(40000u * kept); } mix(sizeof(40000u * kept)); show(' ');
    for (i = 0; i < 8; i++) {  mix(left[i] * 1L); } mix(sizeof(left[i] * 1L)); show(' ');
    for (i = 0; i < 8; i++) {  mix(65535L * left[i]); } mix(sizeof(65535L * left[i])); show(' ');
    for (i = 0; i < 8; i++) { near = left[i]; mix(near * 4294967295UL); } mix(sizeof(near * 4294967295UL)); show(' ');
    for (i = 0; i < 8; i++) { near = left[i]; mix(2147483648UL * near); } mix(sizeof(2147483648UL * near)); show(' ');
    putchar(10);
}
static void operator_3(void)
{
    int i; short near; register short bank;
    for (i = 0; i < 8; i++) { kept = left[i]; mix(kept / 32767); } mix(sizeof(kept / 32767)); show(' ');
    for (i = 0; i < 8; i++) { kept = left[i]; if (kept == ((short) -32768) || kept == ((short) -32767) || kept == ((short) -256) || kept == ((short) -1) || kept == ((short) 3) || kept == ((short) 255) || kept == ((short) 32767)) mix(0 / kept); } mix(sizeof(0 / kept)); show(' ');
    for (i = 0; i < 8; i++) {  mix(left[i] / 40000u); } mix(sizeof(left[i] / 40000u)); show(' ');
    for (i = 0; i < 8; i++) {  if (left[i] == ((short) -32768) || left[i] == ((short) -32767) || left[i] == ((short) -256) || left[i] == ((short) -1) || left[i] == ((short) 3) || left[i] == ((short) 255) || left[i] == ((short) 32767)) mix(0u / left[i]); } mix(sizeof(0u / left[i])); show(' ');
    for (i = 0; i < 8; i++) { near = left[i]; mix(near / (-2147483647L - 1)); } mix(sizeof(near / (-2147483647L - 1))); show(' ');
    for (i = 0; i < 8; i++) { near = left[i]; if (near == ((short) -32768) || near == ((short) -32767) || near == ((short) -256) || near == ((short) -1) || near == ((short) 3) || near == ((short) 255) || near == ((short) 32767)) mix(1L / near); } mix(sizeof(1L / near)); show(' ');
    for (i = 0; i < 8; i++) { bank = left[i]; mix(bank / 2147483648UL); } mix(sizeof(bank / 2147483648UL)); show(' ');
    for (i = 0; i < 8; i++) { bank = left[i]; if (bank == ((short) -32768) || bank == ((short) -32767) || bank == ((short) -256) || bank == ((short) -1) || bank == ((short) 3) || bank == ((short) 255) || bank == ((short) 32767)) mix(2147483648UL / bank); } mix(sizeof(2147483648UL / bank)); show(' ');
    putchar(10);
}
static void operator_4(void)
{
    int i; short near; register short bank;
    for (i = 0; i < 8; i++) {  mix(left[i] % 1); } mix(sizeof(left[i] % 1)); show(' ');
    for (i = 0; i < 8; i++) {  if (left[i] == ((short) -32768) || left[i] == ((short) -32767) || left[i] == ((short) -256) || left[i] == ((short) -1) || left[i] == ((short) 3) || left[i] == ((short) 255) || left[i] == ((short) 32767)) mix(15 % left[i]); } mix(sizeof(15 % left[i])); show(' ');
    for (i = 0; i < 8; i++) { near = left[i]; mix(near % 127u); } mix(sizeof(near % 127u)); show(' ');
    for (i = 0; i < 8; i++) { near = left[i]; if (near == ((short) -32768) || near == ((short) -32767) || near == ((short) -256) || near == ((short) -1) || near == ((short) 3) || near == ((short) 255) || near == ((short) 32767)) mix(32768u % near); } mix(sizeof(32768u % near)); show(' ');
    for (i = 0; i < 8; i++) { bank = left[i]; mix(bank % 1L); } mix(sizeof(bank % 1L)); show(' ');
    for (i = 0; i < 8; i++) { bank = left[i]; if (bank == ((short) -32768) || bank == ((short) -32767) || bank == ((short) -256) || bank == ((short) -1) || bank == ((short) 3) || bank == ((short) 255) || bank == ((short) 32767)) mix(2147483647L % bank); } mix(sizeof(2147483647L % bank)); show(' ');
    for (i = 0; i < 8; i++) { kept = left[i]; mix(kept % 2147483648UL); } mix(sizeof(kept % 2147483648UL)); show(' ');
    for (i = 0; i < 8; i++) { kept = left[i]; if (kept == ((short) -32768) || kept == ((short) -32767) || kept == ((short) -256) || kept == ((short) -1) || kept == ((short) 3) || kept == ((short) 255) || kept == ((short) 32767)) mix(2147483648UL % kept); } mix(sizeof(2147483648UL % kept)); show(' ');
    putchar(10);
}
static void operator_5(void)
{
    int i; short near; register short bank;
    for (i = 0; i < 8; i++) { near = left[i]; mix(near << 7); } mix(sizeof(near << 7)); show(' ');
    for (i = 0; i < 8; i++) { near = left[i]; if (near == ((short) 0) || near == ((short) 3)) mix((-257) << near); } mix(sizeof((-257) << near)); show(' ');
    for (i = 0; i < 8; i++) { bank = left[i]; mix(bank << 0u); } mix(sizeof(bank << 0u)); show(' ');
    for (i = 0; i < 8; i++) { bank = left[i]; if (bank == ((short) 0) || bank == ((short) 3)) mix(255u << bank); } mix(sizeof(255u << bank)); show(' ');
    for (i = 0; i < 8; i++) { kept = left[i]; mix(kept << 8L); } mix(sizeof(kept << 8L)); show(' ');
    for (i = 0; i < 8; i++) { kept = left[i]; if (kept == ((short) 0) || kept == ((short) 3)) mix(0L << kept); } mix(sizeof(0L << kept)); show(' ');
    for (i = 0; i < 8; i++) {  mix(left[i] << 8UL); } mix(sizeof(left[i] << 8UL)); show(' ');
    for (i = 0; i < 8; i++) {  if (left[i] == ((short) 0) || left[i] == ((short) 3)) mix(31UL << left[i]); } mix(sizeof(31UL << left[i])); show(' ');
    putchar(10);
}
static void operator_6(void)
{
    int i; short near; register short bank;
    for (i = 0; i < 8; i++) { bank = left[i]; mix(bank >> 1); } mix(sizeof(bank >> 1)); show(' ');
    for (i = 0; i < 8; i++) { bank = left[i]; if (bank == ((short) 0) || bank == ((short) 3)) mix(0 >> bank); } mix(sizeof(0 >> bank)); show(' ');
    for (i = 0; i < 8; i++) { kept = left[i]; mix(kept >> 2u); } mix(sizeof(kept >> 2u)); show(' ');
    for (i = 0; i < 8; i++) { kept = left[i]; if (kept == ((short) 0) || kept == ((short) 3)) mix(16u >> kept); } mix(sizeof(16u >> kept)); show(' ');
    for (i = 0; i < 8; i++) {  mix(left[i] >> 1L); } mix(sizeof(left[i] >> 1L)); show(' ');
    for (i = 0; i < 8; i++) {  if (left[i] == ((short) 0) || left[i] == ((short) 3)) mix(1L >> left[i]); } mix(sizeof(1L >> left[i])); show(' ');
    for (i = 0; i < 8; i++) { near = left[i]; mix(near >> 1UL); } mix(sizeof(near >> 1UL)); show(' ');
    for (i = 0; i < 8; i++) { near = left[i]; if (near == ((short) 0) || near == ((short) 3)) mix(0UL >> near); } mix(sizeof(0UL >> near)); show(' ');
    putchar(10);
}
static void operator_7(void)
{
    int i; short near; register short bank;
    for (i = 0; i < 8; i++) { kept = left[i]; mix(kept & (-257)); } mix(sizeof(kept & (-257))); show(' ');
    for (i = 0; i < 8; i++) { kept = left[i]; mix(256 & kept); } mix(sizeof(256 & kept)); show(' ');
    for (i = 0; i < 8; i++) {  mix(left[i] & 32768u); } mix(sizeof(left[i] & 32768u)); show(' ');
    for (i = 0; i < 8; i++) {  mix(16u & left[i]); } mix(sizeof(16u & left[i])); show(' ');
    for (i = 0; i < 8; i++) { near = left[i]; mix(near & 255L); } mix(sizeof(near & 255L)); show(' ');
    for (i = 0; i < 8; i++) { near = left[i]; mix((-1L) & near); } mix(sizeof((-1L) & near)); show(' ');
    for (i = 0; i < 8; i++) { bank = left[i]; mix(bank & 65536UL); } mix(sizeof(bank & 65536UL)); show(' ');
    for (i = 0; i < 8; i++) { bank = left[i]; mix(31UL & bank); } mix(sizeof(31UL & bank)); show(' ');
    putchar(10);
}
static void operator_8(void)
{
    int i; short near; register short bank;
    for (i = 0; i < 8; i++) {  mix(left[i] | (-32767 - 1)); } mix(sizeof(left[i] | (-32767 - 1))); show(' ');
    for (i = 0; i < 8; i++) {  mix(0 | left[i]); } mix(sizeof(0 | left[i])); show(' ');
    for (i = 0; i < 8; i++) { near = left[i]; mix(near | 65535u); } mix(sizeof(near | 65535u)); show(' ');
    for (i = 0; i < 8; i++) { near = left[i]; mix(1u | near); } mix(sizeof(1u | near)); show(' ');
    for (i = 0; i < 8; i++) { bank = left[i]; mix(bank | (-2147483647L - 1)); } mix(sizeof(bank | (-2147483647L - 1))); show(' ');
    for (i = 0; i < 8; i++) { bank = left[i]; mix((-32769L) | bank); } mix(sizeof((-32769L) | bank)); show(' ');
    for (i = 0; i < 8; i++) { kept = left[i]; mix(kept | 65536UL); } mix(sizeof(kept | 65536UL)); show(' ');
    for (i = 0; i < 8; i++) { kept = left[i]; mix(0UL | kept); } mix(sizeof(0UL | kept)); show(' ');
    putchar(10);
}
static void operator_9(void)
{
    int i; short near; register short bank;
    for (i = 0; i < 8; i++) { near = left[i]; mix(near ^ (-1)); } mix(sizeof(near ^ (-1))); show(' ');
    for (i = 0; i < 8; i++) { near = left[i]; mix(0 ^ near); } mix(sizeof(0 ^ near)); show(' ');
    for (i = 0; i < 8; i++) { bank = left[i]; mix(bank ^ 0u); } mix(sizeof(bank ^ 0u)); show(' ');
    for (i = 0; i < 8; i++) { bank = left[i]; mix(40000u ^ bank); } mix(sizeof(40000u ^ bank)); show(' ');
    for (i = 0; i < 8; i++) { kept = left[i]; mix(kept ^ (-2147483647L - 1)); } mix(sizeof(kept ^ (-2147483647L - 1))); show(' ');
    for (i = 0; i < 8; i++) { kept = left[i]; mix(255L ^ kept); } mix(sizeof(255L ^ kept)); show(' ');
    for (i = 0; i < 8; i++) {  mix(left[i] ^ 1UL); } mix(sizeof(left[i] ^ 1UL)); show(' ');
    for (i = 0; i < 8; i++) {  mix(2147483647UL ^ left[i]); } mix(sizeof(2147483647UL ^ left[i])); show(' ');
    putchar(10);
}
static void operator_10(void)
{
    int i; short near; register short bank;
    for (i = 0; i < 8; i++) { bank = left[i]; mix(bank == 256); } mix(sizeof(bank == 256)); show(' ');
    for (i = 0; i < 8; i++) { bank = left[i]; mix((-128) == bank); } mix(sizeof((-128) == bank)); show(' ');
    for (i = 0; i < 8; i++) { kept = left[i]; mix(kept == 16u); } mix(sizeof(kept == 16u)); show(' ');
    for (i = 0; i < 8; i++) { kept = left[i]; mix(65535u == kept); } mix(sizeof(65535u == kept)); show(' ');
    for (i = 0; i < 8; i++) {  mix(left[i] == 2147483647L); } mix(sizeof(left[i] == 2147483647L)); show(' ');
    for (i = 0; i < 8; i++) {  mix(255L == left[i]); } mix(sizeof(255L == left[i])); show(' ');
    for (i = 0; i < 8; i++) { near = left[i]; mix(near == 2147483648UL); } mix(sizeof(near == 2147483648UL)); show(' ');
    for (i = 0; i < 8; i++) { near = left[i]; mix(31UL == near); } mix(sizeof(31UL == near)); show(' ');
    putchar(10);
}
static void operator_11(void)
{
    int i; short near; register short bank;
    for (i = 0; i < 8; i++) { kept = left[i]; mix(kept != 1); } mix(sizeof(kept != 1)); show(' ');
    for (i = 0; i < 8; i++) { kept = left[i]; mix(256 != kept); } mix(sizeof(256 != kept)); show(' ');
    for (i = 0; i < 8; i++) {  mix(left[i] != 40000u); } mix(sizeof(left[i] != 40000u)); show(' ');
    for (i = 0; i < 8; i++) {  mix(255u != left[i]); } mix(sizeof(255u != left[i])); show(' ');
    for (i = 0; i < 8; i++) { near = left[i]; mix(near != 65536L); } mix(sizeof(near != 65536L)); show(' ');
    for (i = 0; i < 8; i++) { near = left[i]; mix((-65537L) != near); } mix(sizeof((-65537L) != near)); show(' ');
    for (i = 0; i < 8; i++) { bank = left[i]; mix(bank != 65535UL); } mix(sizeof(bank != 65535UL)); show(' ');
    for (i = 0; i < 8; i++) { bank = left[i]; mix(65535UL != bank); } mix(sizeof(65535UL != bank)); show(' ');
    putchar(10);
}
static void operator_12(void)
{
    int i; short near; register short bank;
    for (i = 0; i < 8; i++) {  mix(left[i] < 1); } mix(sizeof(left[i] < 1)); show(' ');
    for (i = 0; i < 8; i++) {  mix((-1) < left[i]); } mix(sizeof((-1) < left[i])); show(' ');
    for (i = 0; i < 8; i++) { near = left[i]; mix(near < 65535u); } mix(sizeof(near < 65535u)); show(' ');
    for (i = 0; i < 8; i++) { near = left[i]; mix(255u < near); } mix(sizeof(255u < near)); show(' ');
    for (i = 0; i < 8; i++) { bank = left[i]; mix(bank < (-65537L)); } mix(sizeof(bank < (-65537L))); show(' ');
    for (i = 0; i < 8; i++) { bank = left[i]; mix(2147483647L < bank); } mix(sizeof(2147483647L < bank)); show(' ');
    for (i = 0; i < 8; i++) { kept = left[i]; mix(kept < 1UL); } mix(sizeof(kept < 1UL)); show(' ');
    for (i = 0; i < 8; i++) { kept = left[i]; mix(0UL < kept); } mix(sizeof(0UL < kept)); show(' ');
    putchar(10);
}
static void operator_13(void)
{
    int i; short near; register short bank;
    for (i = 0; i < 8; i++) { near = left[i]; mix(near > (-1)); } mix(sizeof(near > (-1))); show(' ');
    for (i = 0; i < 8; i++) { near = left[i]; mix((-1) > near); } mix(sizeof((-1) > near)); show(' ');
    for (i = 0; i < 8; i++) { bank = left[i]; mix(bank > 127u); } mix(sizeof(bank > 127u)); show(' ');
    for (i = 0; i < 8; i++) { bank = left[i]; mix(255u > bank); } mix(sizeof(255u > bank)); show(' ');
    for (i = 0; i < 8; i++) { kept = left[i]; mix(kept > 1L); } mix(sizeof(kept > 1L)); show(' ');
    for (i = 0; i < 8; i++) { kept = left[i]; mix(0L > kept); } mix(sizeof(0L > kept)); show(' ');
    for (i = 0; i < 8; i++) {  mix(left[i] > 0UL); } mix(sizeof(left[i] > 0UL)); show(' ');
    for (i = 0; i < 8; i++) {  mix(2147483647UL > left[i]); } mix(sizeof(2147483647UL > left[i])); show(' ');
    putchar(10);
}
static void operator_14(void)
{
    int i; short near; register short bank;
    for (i = 0; i < 8; i++) { bank = left[i]; mix(bank <= (-32767 - 1)); } mix(sizeof(bank <= (-32767 - 1))); show(' ');
    for (i = 0; i < 8; i++) { bank = left[i]; mix(32767 <= bank); } mix(sizeof(32767 <= bank)); show(' ');
    for (i = 0; i < 8; i++) { kept = left[i]; mix(kept <= 40000u); } mix(sizeof(kept <= 40000u)); show(' ');
    for (i = 0; i < 8; i++) { kept = left[i]; mix(40000u <= kept); } mix(sizeof(40000u <= kept)); show(' ');
    for (i = 0; i < 8; i++) {  mix(left[i] <= 2147483647L); } mix(sizeof(left[i] <= 2147483647L)); show(' ');
    for (i = 0; i < 8; i++) {  mix((-2147483647L - 1) <= left[i]); } mix(sizeof((-2147483647L - 1) <= left[i])); show(' ');
    for (i = 0; i < 8; i++) { near = left[i]; mix(near <= 4294967295UL); } mix(sizeof(near <= 4294967295UL)); show(' ');
    for (i = 0; i < 8; i++) { near = left[i]; mix(0UL <= near); } mix(sizeof(0UL <= near)); show(' ');
    putchar(10);
}
static void operator_15(void)
{
    int i; short near; register short bank;
    for (i = 0; i < 8; i++) { kept = left[i]; mix(kept >= 32767); } mix(sizeof(kept >= 32767)); show(' ');
    for (i = 0; i < 8; i++) { kept = left[i]; mix(15 >= kept); } mix(sizeof(15 >= kept)); show(' ');
    for (i = 0; i < 8; i++) {  mix(left[i] >= 127u); } mix(sizeof(left[i] >= 127u)); show(' ');
    for (i = 0; i < 8; i++) {  mix(65535u >= left[i]); } mix(sizeof(65535u >= left[i])); show(' ');
    for (i = 0; i < 8; i++) { near = left[i]; mix(near >= 1L); } mix(sizeof(near >= 1L)); show(' ');
    for (i = 0; i < 8; i++) { near = left[i]; mix((-65537L) >= near); } mix(sizeof((-65537L) >= near)); show(' ');
    for (i = 0; i < 8; i++) { bank = left[i]; mix(bank >= 65535UL); } mix(sizeof(bank >= 65535UL)); show(' ');
    for (i = 0; i < 8; i++) { bank = left[i]; mix(2147483648UL >= bank); } mix(sizeof(2147483648UL >= bank)); show(' ');
    putchar(10);
}
int main(void)
{
    operator_0();
    operator_1();
    operator_2();
    operator_3();
    operator_4();
    operator_5();
    operator_6();
    operator_7();
    operator_8();
    operator_9();
    operator_10();
    operator_11();
    operator_12();
    operator_13();
    operator_14();
    operator_15();
    return 0;
}
