int putchar(int c);
static unsigned long sum;
static void mix(unsigned long v) { sum = sum + sum + sum + v; }
static void hex(unsigned long n, int digits) { if (digits > 1) hex(n >> 4, digits - 1); putchar("0123456789abcdef"[n & 15]); }
static void show(int end) { hex(sum, 8); putchar(end); sum = 0; }
static short left[] = { ((short) -32768), ((short) -32767), ((short) -256), ((short) -1), ((short) 0), ((short) 3), ((short) 255), ((short) 32767) };
static unsigned char right_uc[] = { ((unsigned char) 0), ((unsigned char) 1), ((unsigned char) 2), ((unsigned char) 7), ((unsigned char) 127), ((unsigned char) 128), ((unsigned char) 200), ((unsigned char) 255) };
static unsigned char count_uc[] = { ((unsigned char) 0), ((unsigned char) 1), ((unsigned char) 2), ((unsigned char) 7), ((unsigned char) 8), ((unsigned char) 9), ((unsigned char) 15) };
static void with_uc(void)
{
    int i, j; register short x; register unsigned char y;
    for (i = 0; i < 8; i++) { x = left[i]; for (j = i & 1; j < 8; j += 2) { y = right_uc[j]; mix(x + y); } } mix(sizeof(x + y)); show(' ');
    for (i = 0; i < 8; i++) { x = left[i]; for (j = i & 1; j < 8; j += 2) { y = right_uc[j]; mix(x - y); } } mix(sizeof(x - y)); show(' ');
    for (i = 0; i < 8; i++) { x = left[i]; for (j = i & 1; j < 8; j += 2) { y = right_uc[j]; mix(x * y); } } mix(sizeof(x * y)); show(' ');
    for (i = 0; i < 8; i++) { x = left[i]; for (j = i & 1; j < 8; j += 2) { y = right_uc[j]; if (y) mix(x / y); } } mix(sizeof(x / y)); show(' ');
    for (i = 0; i < 8; i++) { x = left[i]; for (j = i & 1; j < 8; j += 2) { y = right_uc[j]; if (y) mix(x % y); } } mix(sizeof(x % y)); show(' ');
    for (i = 0; i < 8; i++) { x = left[i]; for (j = i & 1; j < 7; j += 2) { y = count_uc[j]; mix(x << y); } } mix(sizeof(x << y)); show(' ');
    for (i = 0; i < 8; i++) { x = left[i]; for (j = i & 1; j < 7; j += 2) { y = count_uc[j]; mix(x >> y); } } mix(sizeof(x >> y)); show(' ');
    for (i = 0; i < 8; i++) { x = left[i]; for (j = i & 1; j < 8; j += 2) { y = right_uc[j]; mix(x & y); } } mix(sizeof(x & y)); show(' ');
    for (i = 0; i < 8; i++) { x = left[i]; for (j = i & 1; j < 8; j += 2) { y = right_uc[j]; mix(x | y); } } mix(sizeof(x | y)); show(' ');
    for (i = 0; i < 8; i++) { x = left[i]; for (j = i & 1; j < 8; j += 2) { y = right_uc[j]; mix(x ^ y); } } mix(sizeof(x ^ y)); show(' ');
    for (i = 0; i < 8; i++) { x = left[i]; for (j = i & 1; j < 8; j += 2) { y = right_uc[j]; mix(x == y); } } mix(sizeof(x == y)); show(' ');
    for (i = 0; i < 8; i++) { x = left[i]; for (j = i & 1; j < 8; j += 2) { y = right_uc[j]; mix(x != y); } } mix(sizeof(x != y)); show(' ');
    for (i = 0; i < 8; i++) { x = left[i]; for (j = i & 1; j < 8; j += 2) { y = right_uc[j]; mix(x < y); } } mix(sizeof(x < y)); show(' ');
    for (i = 0; i < 8; i++) { x = left[i]; for (j = i & 1; j < 8; j += 2) { y = right_uc[j]; mix(x > y); } } mix(sizeof(x > y)); show(' ');
    for (i = 0; i < 8; i++) { x = left[i]; for (j = i & 1; j < 8; j += 2) { y = right_uc[j]; mix(x <= y); } } mix(sizeof(x <= y)); show(' ');
    for (i = 0; i < 8; i++) { x = left[i]; for (j = i & 1; j < 8; j += 2) { y = right_uc[j]; mix(x >= y); } } mix(sizeof(x >= y)); show(' ');
    for (i = 0; i < 8; i++) { x = left[i]; for (j = i & 1; j < 8; j += 2) { y = right_uc[j]; mix(x && y); } } mix(sizeof(x && y)); show(' ');
    for (i = 0; i < 8; i++) { x = left[i]; for (j = i & 1; j < 8; j += 2) { y = right_uc[j]; mix(x || y); } } mix(sizeof(x || y)); show(' ');
    for (i = 0; i < 8; i++) { x = left[i]; for (j = i & 1; j < 8; j += 2) { y = right_uc[j]; mix((x, y)); } } mix(sizeof((x, y))); show(' ');
    for (i = 0; i < 8; i++) { x = left[i]; for (j = i & 1; j < 8; j += 2) { y = right_uc[j]; mix(x ? y : x); } } mix(sizeof(x ? y : x)); show(' ');
    putchar(10);
}
static signed char right_sc[] = { ((signed char) -128), ((signed char) -127), ((signed char) -2), ((signed char) -1), ((signed char) 0), ((signed char) 1), ((signed char) 7), ((signed char) 127) };
static signed char count_sc[] = { ((signed char) 0), ((signed char) 1), ((signed char) 2), ((signed char) 7), ((signed char) 8), ((signed char) 9), ((signed char) 15) };
static void with_sc(void)
{
    int i, j; static short x; static signed char y;
    for (i = 0; i < 8; i++) { x = left[i]; for (j = i & 1; j < 8; j += 2) { y = right_sc[j]; mix(x + y); } } mix(sizeof(x + y)); show(' ');
    for (i = 0; i < 8; i++) { x = left[i]; for (j = i & 1; j < 8; j += 2) { y = right_sc[j]; mix(x - y); } } mix(sizeof(x - y)); show(' ');
    for (i = 0; i < 8; i++) { x = left[i]; for (j = i & 1; j < 8; j += 2) { y = right_sc[j]; mix(x * y); } } mix(sizeof(x * y)); show(' ');
    for (i = 0; i < 8; i++) { x = left[i]; for (j = i & 1; j < 8; j += 2) { y = right_sc[j]; if (y) mix(x / y); } } mix(sizeof(x / y)); show(' ');
    for (i = 0; i < 8; i++) { x = left[i]; for (j = i & 1; j < 8; j += 2) { y = right_sc[j]; if (y) mix(x % y); } } mix(sizeof(x % y)); show(' ');
    for (i = 0; i < 8; i++) { x = left[i]; for (j = i & 1; j < 7; j += 2) { y = count_sc[j]; mix(x << y); } } mix(sizeof(x << y)); show(' ');
    for (i = 0; i < 8; i++) { x = left[i]; for (j = i & 1; j < 7; j += 2) { y = count_sc[j]; mix(x >> y); } } mix(sizeof(x >> y)); show(' ');
    for (i = 0; i < 8; i++) { x = left[i]; for (j = i & 1; j < 8; j += 2) { y = right_sc[j]; mix(x & y); } } mix(sizeof(x & y)); show(' ');
    for (i = 0; i < 8; i++) { x = left[i]; for (j = i & 1; j < 8; j += 2) { y = right_sc[j]; mix(x | y); } } mix(sizeof(x | y)); show(' ');
    for (i = 0; i < 8; i++) { x = left[i]; for (j = i & 1; j < 8; j += 2) { y = right_sc[j]; mix(x ^ y); } } mix(sizeof(x ^ y)); show(' ');
    for (i = 0; i < 8; i++) { x = left[i]; for (j = i & 1; j < 8; j += 2) { y = right_sc[j]; mix(x == y); } } mix(sizeof(x == y)); show(' ');
    for (i = 0; i < 8; i++) { x = left[i]; for (j = i & 1; j < 8; j += 2) { y = right_sc[j]; mix(x != y); } } mix(sizeof(x != y)); show(' ');
    for (i = 0; i < 8; i++) { x = left[i]; for (j = i & 1; j < 8; j += 2) { y = right_sc[j]; mix(x < y); } } mix(sizeof(x < y)); show(' ');
    for (i = 0; i < 8; i++) { x = left[i]; for (j = i & 1; j < 8; j += 2) { y = right_sc[j]; mix(x > y); } } mix(sizeof(x > y)); show(' ');
    for (i = 0; i < 8; i++) { x = left[i]; for (j = i & 1; j < 8; j += 2) { y = right_sc[j]; mix(x <= y); } } mix(sizeof(x <= y)); show(' ');
    for (i = 0; i < 8; i++) { x = left[i]; for (j = i & 1; j < 8; j += 2) { y = right_sc[j]; mix(x >= y); } } mix(sizeof(x >= y)); show(' ');
    for (i = 0; i < 8; i++) { x = left[i]; for (j = i & 1; j < 8; j += 2) { y = right_sc[j]; mix(x && y); } } mix(sizeof(x && y)); show(' ');
    for (i = 0; i < 8; i++) { x = left[i]; for (j = i & 1; j < 8; j += 2) { y = right_sc[j]; mix(x || y); } } mix(sizeof(x || y)); show(' ');
    for (i = 0; i < 8; i++) { x = left[i]; for (j = i & 1; j < 8; j += 2) { y = right_sc[j]; mix((x, y)); } } mix(sizeof((x, y))); show(' ');
    for (i = 0; i < 8; i++) { x = left[i]; for (j = i & 1; j < 8; j += 2) { y = right_sc[j]; mix(x ? y : x); } } mix(sizeof(x ? y : x)); show(' ');
    putchar(10);
}
static short right_s[] = { ((short) -32768), ((short) -32767), ((short) -256), ((short) -1), ((short) 0), ((short) 3), ((short) 255), ((short) 32767) };
static short count_s[] = { ((short) 0), ((short) 1), ((short) 2), ((short) 7), ((short) 8), ((short) 9), ((short) 15) };
static void with_s(void)
{
    int i, j; short *x; short *y;
    for (i = 0; i < 8; i++) { x = left + i; for (j = i & 1; j < 8; j += 2) { y = right_s + j; mix(*x + *y); } } mix(sizeof(*x + *y)); show(' ');
    for (i = 0; i < 8; i++) { x = left + i; for (j = i & 1; j < 8; j += 2) { y = right_s + j; mix(*x - *y); } } mix(sizeof(*x - *y)); show(' ');
    for (i = 0; i < 8; i++) { x = left + i; for (j = i & 1; j < 8; j += 2) { y = right_s + j; mix(*x * *y); } } mix(sizeof(*x * *y)); show(' ');
    for (i = 0; i < 8; i++) { x = left + i; for (j = i & 1; j < 8; j += 2) { y = right_s + j; if (*y) mix(*x / *y); } } mix(sizeof(*x / *y)); show(' ');
    for (i = 0; i < 8; i++) { x = left + i; for (j = i & 1; j < 8; j += 2) { y = right_s + j; if (*y) mix(*x % *y); } } mix(sizeof(*x % *y)); show(' ');
    for (i = 0; i < 8; i++) { x = left + i; for (j = i & 1; j < 7; j += 2) { y = count_s + j; mix(*x << *y); } } mix(sizeof(*x << *y)); show(' ');
    for (i = 0; i < 8; i++) { x = left + i; for (j = i & 1; j < 7; j += 2) { y = count_s + j; mix(*x >> *y); } } mix(sizeof(*x >> *y)); show(' ');
    for (i = 0; i < 8; i++) { x = left + i; for (j = i & 1; j < 8; j += 2) { y = right_s + j; mix(*x & *y); } } mix(sizeof(*x & *y)); show(' ');
    for (i = 0; i < 8; i++) { x = left + i; for (j = i & 1; j < 8; j += 2) { y = right_s + j; mix(*x | *y); } } mix(sizeof(*x | *y)); show(' ');
    for (i = 0; i < 8; i++) { x = left + i; for (j = i & 1; j < 8; j += 2) { y = right_s + j; mix(*x ^ *y); } } mix(sizeof(*x ^ *y)); show(' ');
    for (i = 0; i < 8; i++) { x = left + i; for (j = i & 1; j < 8; j += 2) { y = right_s + j; mix(*x == *y); } } mix(sizeof(*x == *y)); show(' ');
    for (i = 0; i < 8; i++) { x = left + i; for (j = i & 1; j < 8; j += 2) { y = right_s + j; mix(*x != *y); } } mix(sizeof(*x != *y)); show(' ');
    for (i = 0; i < 8; i++) { x = left + i; for (j = i & 1; j < 8; j += 2) { y = right_s + j; mix(*x < *y); } } mix(sizeof(*x < *y)); show(' ');
    for (i = 0; i < 8; i++) { x = left + i; for (j = i & 1; j < 8; j += 2) { y = right_s + j; mix(*x > *y); } } mix(sizeof(*x > *y)); show(' ');
    for (i = 0; i < 8; i++) { x = left + i; for (j = i & 1; j < 8; j += 2) { y = right_s + j; mix(*x <= *y); } } mix(sizeof(*x <= *y)); show(' ');
    for (i = 0; i < 8; i++) { x = left + i; for (j = i & 1; j < 8; j += 2) { y = right_s + j; mix(*x >= *y); } } mix(sizeof(*x >= *y)); show(' ');
    for (i = 0; i < 8; i++) { x = left + i; for (j = i & 1; j < 8; j += 2) { y = right_s + j; mix(*x && *y); } } mix(sizeof(*x && *y)); show(' ');
    for (i = 0; i < 8; i++) { x = left + i; for (j = i & 1; j < 8; j += 2) { y = right_s + j; mix(*x || *y); } } mix(sizeof(*x || *y)); show(' ');
    for (i = 0; i < 8; i++) { x = left + i; for (j = i & 1; j < 8; j += 2) { y = right_s + j; mix((*x, *y)); } } mix(sizeof((*x, *y))); show(' ');
    for (i = 0; i < 8; i++) { x = left + i; for (j = i & 1; j < 8; j += 2) { y = right_s + j; mix(*x ? *y : *x); } } mix(sizeof(*x ? *y : *x)); show(' ');
    putchar(10);
}
static unsigned short right_us[] = { ((unsigned short) 0), ((unsigned short) 1), ((unsigned short) 9), ((unsigned short) 255), ((unsigned short) 256), ((unsigned short) 32767), ((unsigned short) 32768), ((unsigned short) 65535) };
static unsigned short count_us[] = { ((unsigned short) 0), ((unsigned short) 1), ((unsigned short) 2), ((unsigned short) 7), ((unsigned short) 8), ((unsigned short) 9), ((unsigned short) 15) };
static void with_us(void)
{
    int i, j; struct { char pad[260]; short x; } a; struct { unsigned short y; } b, *q = &b;
    for (i = 0; i < 8; i++) { a.x = left[i]; for (j = i & 1; j < 8; j += 2) { q->y = right_us[j]; mix(a.x + q->y); } } mix(sizeof(a.x + q->y)); show(' ');
    for (i = 0; i < 8; i++) { a.x = left[i]; for (j = i & 1; j < 8; j += 2) { q->y = right_us[j]; mix(a.x - q->y); } } mix(sizeof(a.x - q->y)); show(' ');
    for (i = 0; i < 8; i++) { a.x = left[i]; for (j = i & 1; j < 8; j += 2) { q->y = right_us[j]; mix(a.x * q->y); } } mix(sizeof(a.x * q->y)); show(' ');
    for (i = 0; i < 8; i++) { a.x = left[i]; for (j = i & 1; j < 8; j += 2) { q->y = right_us[j]; if (q->y) mix(a.x / q->y); } } mix(sizeof(a.x / q->y)); show(' ');
    for (i = 0; i < 8; i++) { a.x = left[i]; for (j = i & 1; j < 8; j += 2) { q->y = right_us[j]; if (q->y) mix(a.x % q->y); } } mix(sizeof(a.x % q->y)); show(' ');
    for (i = 0; i < 8; i++) { a.x = left[i]; for (j = i & 1; j < 7; j += 2) { q->y = count_us[j]; mix(a.x << q->y); } } mix(sizeof(a.x << q->y)); show(' ');
    for (i = 0; i < 8; i++) { a.x = left[i]; for (j = i & 1; j < 7; j += 2) { q->y = count_us[j]; mix(a.x >> q->y); } } mix(sizeof(a.x >> q->y)); show(' ');
    for (i = 0; i < 8; i++) { a.x = left[i]; for (j = i & 1; j < 8; j += 2) { q->y = right_us[j]; mix(a.x & q->y); } } mix(sizeof(a.x & q->y)); show(' ');
    for (i = 0; i < 8; i++) { a.x = left[i]; for (j = i & 1; j < 8; j += 2) { q->y = right_us[j]; mix(a.x | q->y); } } mix(sizeof(a.x | q->y)); show(' ');
    for (i = 0; i < 8; i++) { a.x = left[i]; for (j = i & 1; j < 8; j += 2) { q->y = right_us[j]; mix(a.x ^ q->y); } } mix(sizeof(a.x ^ q->y)); show(' ');
    for (i = 0; i < 8; i++) { a.x = left[i]; for (j = i & 1; j < 8; j += 2) { q->y = right_us[j]; mix(a.x == q->y); } } mix(sizeof(a.x == q->y)); show(' ');
    for (i = 0; i < 8; i++) { a.x = left[i]; for (j = i & 1; j < 8; j += 2) { q->y = right_us[j]; mix(a.x != q->y); } } mix(sizeof(a.x != q->y)); show(' ');
    for (i = 0; i < 8; i++) { a.x = left[i]; for (j = i & 1; j < 8; j += 2) { q->y = right_us[j]; mix(a.x < q->y); } } mix(sizeof(a.x < q->y)); show(' ');
    for (i = 0; i < 8; i++) { a.x = left[i]; for (j = i & 1; j < 8; j += 2) { q->y = right_us[j]; mix(a.x > q->y); } } mix(sizeof(a.x > q->y)); show(' ');
    for (i = 0; i < 8; i++) { a.x = left[i]; for (j = i & 1; j < 8; j += 2) { q->y = right_us[j]; mix(a.x <= q->y); } } mix(sizeof(a.x <= q->y)); show(' ');
    for (i = 0; i < 8; i++) { a.x = left[i]; for (j = i & 1; j < 8; j += 2) { q->y = right_us[j]; mix(a.x >= q->y); } } mix(sizeof(a.x >= q->y)); show(' ');
    for (i = 0; i < 8; i++) { a.x = left[i]; for (j = i & 1; j < 8; j += 2) { q->y = right_us[j]; mix(a.x && q->y); } } mix(sizeof(a.x && q->y)); show(' ');
    for (i = 0; i < 8; i++) { a.x = left[i]; for (j = i & 1; j < 8; j += 2) { q->y = right_us[j]; mix(a.x || q->y); } } mix(sizeof(a.x || q->y)); show(' ');
    for (i = 0; i < 8; i++) { a.x = left[i]; for (j = i & 1; j < 8; j += 2) { q->y = right_us[j]; mix((a.x, q->y)); } } mix(sizeof((a.x, q->y))); show(' ');
    for (i = 0; i < 8; i++) { a.x = left[i]; for (j = i & 1; j < 8; j += 2) { q->y = right_us[j]; mix(a.x ? q->y : a.x); } } mix(sizeof(a.x ? q->y : a.x)); show(' ');
    putchar(10);
}
static int right_i[] = { (-32767 - 1), (-257), (-128), (-1), 0, 1, 15, 256, 32767 };
static int count_i[] = { 0, 1, 2, 7, 8, 9, 15 };
static void with_i(void)
{
    int i, j; 
    for (i = 0; i < 8; i++) {  for (j = i & 1; j < 9; j += 2) {  mix(left[i] + right_i[j]); } } mix(sizeof(left[i] + right_i[j])); show(' ');
    for (i = 0; i < 8; i++) {  for (j = i & 1; j < 9; j += 2) {  mix(left[i] - right_i[j]); } } mix(sizeof(left[i] - right_i[j])); show(' ');
    for (i = 0; i < 8; i++) {  for (j = i & 1; j < 9; j += 2) {  mix(left[i] * right_i[j]); } } mix(sizeof(left[i] * right_i[j])); show(' ');
    for (i = 0; i < 8; i++) {  for (j = i & 1; j < 9; j += 2) {  if (right_i[j]) mix(left[i] / right_i[j]); } } mix(sizeof(left[i] / right_i[j])); show(' ');
    for (i = 0; i < 8; i++) {  for (j = i & 1; j < 9; j += 2) {  if (right_i[j]) mix(left[i] % right_i[j]); } } mix(sizeof(left[i] % right_i[j])); show(' ');
    for (i = 0; i < 8; i++) {  for (j = i & 1; j < 7; j += 2) {  mix(left[i] << count_i[j]); } } mix(sizeof(left[i] << count_i[j])); show(' ');
    for (i = 0; i < 8; i++) {  for (j = i & 1; j < 7; j += 2) {  mix(left[i] >> count_i[j]); } } mix(sizeof(left[i] >> count_i[j])); show(' ');
    for (i = 0; i < 8; i++) {  for (j = i & 1; j < 9; j += 2) {  mix(left[i] & right_i[j]); } } mix(sizeof(left[i] & right_i[j])); show(' ');
    for (i = 0; i < 8; i++) {  for (j = i & 1; j < 9; j += 2) {  mix(left[i] | right_i[j]); } } mix(sizeof(left[i] | right_i[j])); show(' ');
    for (i = 0; i < 8; i++) {  for (j = i & 1; j < 9; j += 2) {  mix(left[i] ^ right_i[j]); } } mix(sizeof(left[i] ^ right_i[j])); show(' ');
    for (i = 0; i < 8; i++) {  for (j = i & 1; j < 9; j += 2) {  mix(left[i] == right_i[j]); } } mix(sizeof(left[i] == right_i[j])); show(' ');
    for (i = 0; i < 8; i++) {  for (j = i & 1; j < 9; j += 2) {  mix(left[i] != right_i[j]); } } mix(sizeof(left[i] != right_i[j])); show(' ');
    for (i = 0; i < 8; i++) {  for (j = i & 1; j < 9; j += 2) {  mix(left[i] < right_i[j]); } } mix(sizeof(left[i] < right_i[j])); show(' ');
    for (i = 0; i < 8; i++) {  for (j = i & 1; j < 9; j += 2) {  mix(left[i] > right_i[j]); } } mix(sizeof(left[i] > right_i[j])); show(' ');
    for (i = 0; i < 8; i++) {  for (j = i & 1; j < 9; j += 2) {  mix(left[i] <= right_i[j]); } } mix(sizeof(left[i] <= right_i[j])); show(' ');
    for (i = 0; i < 8; i++) {  for (j = i & 1; j < 9; j += 2) {  mix(left[i] >= right_i[j]); } } mix(sizeof(left[i] >= right_i[j])); show(' ');
    for (i = 0; i < 8; i++) {  for (j = i & 1; j < 9; j += 2) {  mix(left[i] && right_i[j]); } } mix(sizeof(left[i] && right_i[j])); show(' ');
    for (i = 0; i < 8; i++) {  for (j = i & 1; j < 9; j += 2) {  mix(left[i] || right_i[j]); } } mix(sizeof(left[i] || right_i[j])); show(' ');
    for (i = 0; i < 8; i++) {  for (j = i & 1; j < 9; j += 2) {  mix((left[i], right_i[j])); } } mix(sizeof((left[i], right_i[j]))); show(' ');
    for (i = 0; i < 8; i++) {  for (j = i & 1; j < 9; j += 2) {  mix(left[i] ? right_i[j] : left[i]); } } mix(sizeof(left[i] ? right_i[j] : left[i])); show(' ');
    putchar(10);
}
static unsigned int right_u[] = { 0u, 1u, 16u, 127u, 255u, 32768u, 40000u, 65535u };
static unsigned int count_u[] = { 0u, 1u, 2u, 7u, 8u, 9u, 15u };
static void with_u(void)
{
    int i, j; short x; unsigned int y;
    for (i = 0; i < 8; i++) { x = left[i]; for (j = i & 1; j < 8; j += 2) { y = right_u[j]; mix(x + y); } } mix(sizeof(x + y)); show(' ');
    for (i = 0; i < 8; i++) { x = left[i]; for (j = i & 1; j < 8; j += 2) { y = right_u[j]; mix(x - y); } } mix(sizeof(x - y)); show(' ');
    for (i = 0; i < 8; i++) { x = left[i]; for (j = i & 1; j < 8; j += 2) { y = right_u[j]; mix(x * y); } } mix(sizeof(x * y)); show(' ');
    for (i = 0; i < 8; i++) { x = left[i]; for (j = i & 1; j < 8; j += 2) { y = right_u[j]; if (y) mix(x / y); } } mix(sizeof(x / y)); show(' ');
    for (i = 0; i < 8; i++) { x = left[i]; for (j = i & 1; j < 8; j += 2) { y = right_u[j]; if (y) mix(x % y); } } mix(sizeof(x % y)); show(' ');
    for (i = 0; i < 8; i++) { x = left[i]; for (j = i & 1; j < 7; j += 2) { y = count_u[j]; mix(x << y); } } mix(sizeof(x << y)); show(' ');
    for (i = 0; i < 8; i++) { x = left[i]; for (j = i & 1; j < 7; j += 2) { y = count_u[j]; mix(x >> y); } } mix(sizeof(x >> y)); show(' ');
    for (i = 0; i < 8; i++) { x = left[i]; for (j = i & 1; j < 8; j += 2) { y = right_u[j]; mix(x & y); } } mix(sizeof(x & y)); show(' ');
    for (i = 0; i < 8; i++) { x = left[i]; for (j = i & 1; j < 8; j += 2) { y = right_u[j]; mix(x | y); } } mix(sizeof(x | y)); show(' ');
    for (i = 0; i < 8; i++) { x = left[i]; for (j = i & 1; j < 8; j += 2) { y = right_u[j]; mix(x ^ y); } } mix(sizeof(x ^ y)); show(' ');
    for (i = 0; i < 8; i++) { x = left[i]; for (j = i & 1; j < 8; j += 2) { y = right_u[j]; mix(x == y); } } mix(sizeof(x == y)); show(' ');
    for (i = 0; i < 8; i++) { x = left[i]; for (j = i & 1; j < 8; j += 2) { y = right_u[j]; mix(x != y); } } mix(sizeof(x != y)); show(' ');
    for (i = 0; i < 8; i++) { x = left[i]; for (j = i & 1; j < 8; j += 2) { y = right_u[j]; mix(x < y); } } mix(sizeof(x < y)); show(' ');
    for (i = 0; i < 8; i++) { x = left[i]; for (j = i & 1; j < 8; j += 2) { y = right_u[j]; mix(x > y); } } mix(sizeof(x > y)); show(' ');
    for (i = 0; i < 8; i++) { x = left[i]; for (j = i & 1; j < 8; j += 2) { y = right_u[j]; mix(x <= y); } } mix(sizeof(x <= y)); show(' ');
    for (i = 0; i < 8; i++) { x = left[i]; for (j = i & 1; j < 8; j += 2) { y = right_u[j]; mix(x >= y); } } mix(sizeof(x >= y)); show(' ');
    for (i = 0; i < 8; i++) { x = left[i]; for (j = i & 1; j < 8; j += 2) { y = right_u[j]; mix(x && y); } } mix(sizeof(x && y)); show(' ');
    for (i = 0; i < 8; i++) { x = left[i]; for (j = i & 1; j < 8; j += 2) { y = right_u[j]; mix(x || y); } } mix(sizeof(x || y)); show(' ');
    for (i = 0; i < 8; i++) { x = left[i]; for (j = i & 1; j < 8; j += 2) { y = right_u[j]; mix((x, y)); } } mix(sizeof((x, y))); show(' ');
    for (i = 0; i < 8; i++) { x = left[i]; for (j = i & 1; j < 8; j += 2) { y = right_u[j]; mix(x ? y : x); } } mix(sizeof(x ? y : x)); show(' ');
    putchar(10);
}
static long right_l[] = { (-2147483647L - 1), (-65537L), (-32769L), (-1L), 0L, 1L, 255L, 65535L, 65536L, 2147483647L };
static long count_l[] = { 0L, 1L, 2L, 7L, 8L, 9L, 15L };
static void with_l(void)
{
    int i, j; register short x; register long y;
    for (i = 0; i < 8; i++) { x = left[i]; for (j = i & 1; j < 10; j += 2) { y = right_l[j]; mix(x + y); } } mix(sizeof(x + y)); show(' ');
    for (i = 0; i < 8; i++) { x = left[i]; for (j = i & 1; j < 10; j += 2) { y = right_l[j]; mix(x - y); } } mix(sizeof(x - y)); show(' ');
    for (i = 0; i < 8; i++) { x = left[i]; for (j = i & 1; j < 10; j += 2) { y = right_l[j]; mix(x * y); } } mix(sizeof(x * y)); show(' ');
    for (i = 0; i < 8; i++) { x = left[i]; for (j = i & 1; j < 10; j += 2) { y = right_l[j]; if (y) mix(x / y); } } mix(sizeof(x / y)); show(' ');
    for (i = 0; i < 8; i++) { x = left[i]; for (j = i & 1; j < 10; j += 2) { y = right_l[j]; if (y) mix(x % y); } } mix(sizeof(x % y)); show(' ');
    for (i = 0; i < 8; i++) { x = left[i]; for (j = i & 1; j < 7; j += 2) { y = count_l[j]; mix(x << y); } } mix(sizeof(x << y)); show(' ');
    for (i = 0; i < 8; i++) { x = left[i]; for (j = i & 1; j < 7; j += 2) { y = count_l[j]; mix(x >> y); } } mix(sizeof(x >> y)); show(' ');
    for (i = 0; i < 8; i++) { x = left[i]; for (j = i & 1; j < 10; j += 2) { y = right_l[j]; mix(x & y); } } mix(sizeof(x & y)); show(' ');
    for (i = 0; i < 8; i++) { x = left[i]; for (j = i & 1; j < 10; j += 2) { y = right_l[j]; mix(x | y); } } mix(sizeof(x | y)); show(' ');
    for (i = 0; i < 8; i++) { x = left[i]; for (j = i & 1; j < 10; j += 2) { y = right_l[j]; mix(x ^ y); } } mix(sizeof(x ^ y)); show(' ');
    for (i = 0; i < 8; i++) { x = left[i]; for (j = i & 1; j < 10; j += 2) { y = right_l[j]; mix(x == y); } } mix(sizeof(x == y)); show(' ');
    for (i = 0; i < 8; i++) { x = left[i]; for (j = i & 1; j < 10; j += 2) { y = right_l[j]; mix(x != y); } } mix(sizeof(x != y)); show(' ');
    for (i = 0; i < 8; i++) { x = left[i]; for (j = i & 1; j < 10; j += 2) { y = right_l[j]; mix(x < y); } } mix(sizeof(x < y)); show(' ');
    for (i = 0; i < 8; i++) { x = left[i]; for (j = i & 1; j < 10; j += 2) { y = right_l[j]; mix(x > y); } } mix(sizeof(x > y)); show(' ');
    for (i = 0; i < 8; i++) { x = left[i]; for (j = i & 1; j < 10; j += 2) { y = right_l[j]; mix(x <= y); } } mix(sizeof(x <= y)); show(' ');
    for (i = 0; i < 8; i++) { x = left[i]; for (j = i & 1; j < 10; j += 2) { y = right_l[j]; mix(x >= y); } } mix(sizeof(x >= y)); show(' ');
    for (i = 0; i < 8; i++) { x = left[i]; for (j = i & 1; j < 10; j += 2) { y = right_l[j]; mix(x && y); } } mix(sizeof(x && y)); show(' ');
    for (i = 0; i < 8; i++) { x = left[i]; for (j = i & 1; j < 10; j += 2) { y = right_l[j]; mix(x || y); } } mix(sizeof(x || y)); show(' ');
    for (i = 0; i < 8; i++) { x = left[i]; for (j = i & 1; j < 10; j += 2) { y = right_l[j]; mix((x, y)); } } mix(sizeof((x, y))); show(' ');
    for (i = 0; i < 8; i++) { x = left[i]; for (j = i & 1; j < 10; j += 2) { y = right_l[j]; mix(x ? y : x); } } mix(sizeof(x ? y : x)); show(' ');
    putchar(10);
}
static unsigned long right_ul[] = { 0UL, 1UL, 31UL, 65535UL, 65536UL, 2147483647UL, 2147483648UL, 4294967295UL };
static unsigned long count_ul[] = { 0UL, 1UL, 2UL, 7UL, 8UL, 9UL, 15UL };
static void with_ul(void)
{
    int i, j; static short x; static unsigned long y;
    for (i = 0; i < 8; i++) { x = left[i]; for (j = i & 1; j < 8; j += 2) { y = right_ul[j]; mix(x + y); } } mix(sizeof(x + y)); show(' ');
    for (i = 0; i < 8; i++) { x = left[i]; for (j = i & 1; j < 8; j += 2) { y = right_ul[j]; mix(x - y); } } mix(sizeof(x - y)); show(' ');
    for (i = 0; i < 8; i++) { x = left[i]; for (j = i & 1; j < 8; j += 2) { y = right_ul[j]; mix(x * y); } } mix(sizeof(x * y)); show(' ');
    for (i = 0; i < 8; i++) { x = left[i]; for (j = i & 1; j < 8; j += 2) { y = right_ul[j]; if (y) mix(x / y); } } mix(sizeof(x / y)); show(' ');
    for (i = 0; i < 8; i++) { x = left[i]; for (j = i & 1; j < 8; j += 2) { y = right_ul[j]; if (y) mix(x % y); } } mix(sizeof(x % y)); show(' ');
    for (i = 0; i < 8; i++) { x = left[i]; for (j = i & 1; j < 7; j += 2) { y = count_ul[j]; mix(x << y); } } mix(sizeof(x << y)); show(' ');
    for (i = 0; i < 8; i++) { x = left[i]; for (j = i & 1; j < 7; j += 2) { y = count_ul[j]; mix(x >> y); } } mix(sizeof(x >> y)); show(' ');
    for (i = 0; i < 8; i++) { x = left[i]; for (j = i & 1; j < 8; j += 2) { y = right_ul[j]; mix(x & y); } } mix(sizeof(x & y)); show(' ');
    for (i = 0; i < 8; i++) { x = left[i]; for (j = i & 1; j < 8; j += 2) { y = right_ul[j]; mix(x | y); } } mix(sizeof(x | y)); show(' ');
    for (i = 0; i < 8; i++) { x = left[i]; for (j = i & 1; j < 8; j += 2) { y = right_ul[j]; mix(x ^ y); } } mix(sizeof(x ^ y)); show(' ');
    for (i = 0; i < 8; i++) { x = left[i]; for (j = i & 1; j < 8; j += 2) { y = right_ul[j]; mix(x == y); } } mix(sizeof(x == y)); show(' ');
    for (i = 0; i < 8; i++) { x = left[i]; for (j = i & 1; j < 8; j += 2) { y = right_ul[j]; mix(x != y); } } mix(sizeof(x != y)); show(' ');
    for (i = 0; i < 8; i++) { x = left[i]; for (j = i & 1; j < 8; j += 2) { y = right_ul[j]; mix(x < y); } } mix(sizeof(x < y)); show(' ');
    for (i = 0; i < 8; i++) { x = left[i]; for (j = i & 1; j < 8; j += 2) { y = right_ul[j]; mix(x > y); } } mix(sizeof(x > y)); show(' ');
    for (i = 0; i < 8; i++) { x = left[i]; for (j = i & 1; j < 8; j += 2) { y = right_ul[j]; mix(x <= y); } } mix(sizeof(x <= y)); show(' ');
    for (i = 0; i < 8; i++) { x = left[i]; for (j = i & 1; j < 8; j += 2) { y = right_ul[j]; mix(x >= y); } } mix(sizeof(x >= y)); show(' ');
    for (i = 0; i < 8; i++) { x = left[i]; for (j = i & 1; j < 8; j += 2) { y = right_ul[j]; mix(x && y); } } mix(sizeof(x && y)); show(' ');
    for (i = 0; i < 8; i++) { x = left[i]; for (j = i & 1; j < 8; j += 2) { y = right_ul[j]; mix(x || y); } } mix(sizeof(x || y)); show(' ');
    for (i = 0; i < 8; i++) { x = left[i]; for (j = i & 1; j < 8; j += 2) { y = right_ul[j]; mix((x, y)); } } mix(sizeof((x, y))); show(' ');
    for (i = 0; i < 8; i++) { x = left[i]; for (j = i & 1; j < 8; j += 2) { y = right_ul[j]; mix(x ? y : x); } } mix(sizeof(x ? y : x)); show(' ');
    putchar(10);
}
int main(void)
{
    with_uc();
    with_sc();
    with_s();
    with_us();
    with_i();
    with_u();
    with_l();
    with_ul();
    return 0;
}
