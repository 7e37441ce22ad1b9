int putchar(int c);
static unsigned long sum;
static void mix(unsigned long v) { sum = sum + sum + sum + v; }
static void hex(unsigned long n, int digits) { if (digits > 1) hex(n >> 4, digits - 1); putchar("0123456789abcdef"[n & 15]); }
static void show(int end) { hex(sum, 8); putchar(end); sum = 0; }
static int v[] = { 0, 1, -1, 5, 170, 257, 32767, -32767 - 1 };
struct f0 { signed part : 9; unsigned after : 7; };
static void field_0(void)
{
    struct f0 z, *q = &z; static struct f0 kept; struct { char pad[260]; struct f0 z; } beyond; int i;
    for (i = 0; i < 8; i++) { z.after = i * 2222; mix(z.part = v[i]); mix(z.part); mix(z.part++); mix(++z.part); mix(z.part--); mix(--z.part); mix(z.part - 5); mix(-z.part); mix(z.part ? 2 : 3); mix(z.part += v[i]); mix(z.part ^= 21); mix(z.part |= 8); mix(z.part &= 29); mix(z.part *= 3); mix(z.part /= 2); mix(z.part %= 7); mix(z.part <<= 1); mix(z.part >>= 1); mix(z.part -= 9); mix(z.part << 1); mix(z.after); } show(10);
}
struct f1 { unsigned before : 1; signed part : 9; unsigned after : 6; };
static void field_1(void)
{
    struct f1 z, *q = &z; static struct f1 kept; struct { char pad[260]; struct f1 z; } beyond; int i;
    for (i = 0; i < 8; i++) { q->before = i * 1111; q->after = i * 2222; mix(q->part = v[i]); mix(q->part); mix(q->part++); mix(++q->part); mix(q->part--); mix(--q->part); mix(q->part - 5); mix(-q->part); mix(q->part ? 2 : 3); mix(q->part += v[i]); mix(q->part ^= 21); mix(q->part |= 8); mix(q->part &= 29); mix(q->part *= 3); mix(q->part /= 2); mix(q->part %= 7); mix(q->part <<= 1); mix(q->part >>= 1); mix(q->part -= 9); mix(q->part << 1); mix(q->before); mix(q->after); } show(10);
}
struct f2 { unsigned before : 3; signed part : 9; unsigned after : 4; };
static void field_2(void)
{
    struct f2 z, *q = &z; static struct f2 kept; struct { char pad[260]; struct f2 z; } beyond; int i;
    for (i = 0; i < 8; i++) { kept.before = i * 1111; kept.after = i * 2222; mix(kept.part = v[i]); mix(kept.part); mix(kept.part++); mix(++kept.part); mix(kept.part--); mix(--kept.part); mix(kept.part - 5); mix(-kept.part); mix(kept.part ? 2 : 3); mix(kept.part += v[i]); mix(kept.part ^= 21); mix(kept.part |= 8); mix(kept.part &= 29); mix(kept.part *= 3); mix(kept.part /= 2); mix(kept.part %= 7); mix(kept.part <<= 1); mix(kept.part >>= 1); mix(kept.part -= 9); mix(kept.part << 1); mix(kept.before); mix(kept.after); } show(10);
}
struct f3 { unsigned before : 7; signed part : 9; };
static void field_3(void)
{
    struct f3 z, *q = &z; static struct f3 kept; struct { char pad[260]; struct f3 z; } beyond; int i;
    for (i = 0; i < 8; i++) { beyond.z.before = i * 1111; mix(beyond.z.part = v[i]); mix(beyond.z.part); mix(beyond.z.part++); mix(++beyond.z.part); mix(beyond.z.part--); mix(--beyond.z.part); mix(beyond.z.part - 5); mix(-beyond.z.part); mix(beyond.z.part ? 2 : 3); mix(beyond.z.part += v[i]); mix(beyond.z.part ^= 21); mix(beyond.z.part |= 8); mix(beyond.z.part &= 29); mix(beyond.z.part *= 3); mix(beyond.z.part /= 2); mix(beyond.z.part %= 7); mix(beyond.z.part <<= 1); mix(beyond.z.part >>= 1); mix(beyond.z.part -= 9); mix(beyond.z.part << 1); mix(beyond.z.before); } show(10);
}
struct f4 { signed part : 10; unsigned after : 6; };
static void field_4(void)
{
    struct f4 z, *q = &z; static struct f4 kept; struct { char pad[260]; struct f4 z; } beyond; int i;
    for (i = 0; i < 8; i++) { z.after = i * 2222; mix(z.part = v[i]); mix(z.part); mix(z.part++); mix(++z.part); mix(z.part--); mix(--z.part); mix(z.part - 5); mix(-z.part); mix(z.part ? 2 : 3); mix(z.part += v[i]); mix(z.part ^= 21); mix(z.part |= 8); mix(z.part &= 29); mix(z.part *= 3); mix(z.part /= 2); mix(z.part %= 7); mix(z.part <<= 1); mix(z.part >>= 1); mix(z.part -= 9); mix(z.part << 1); mix(z.after); } show(10);
}
struct f5 { unsigned before : 1; signed part : 10; unsigned after : 5; };
static void field_5(void)
{
    struct f5 z, *q = &z; static struct f5 kept; struct { char pad[260]; struct f5 z; } beyond; int i;
    for (i = 0; i < 8; i++) { q->before = i * 1111; q->after = i * 2222; mix(q->part = v[i]); mix(q->part); mix(q->part++); mix(++q->part); mix(q->part--); mix(--q->part); mix(q->part - 5); mix(-q->part); mix(q->part ? 2 : 3); mix(q->part += v[i]); mix(q->part ^= 21); mix(q->part |= 8); mix(q->part &= 29); mix(q->part *= 3); mix(q->part /= 2); mix(q->part %= 7); mix(q->part <<= 1); mix(q->part >>= 1); mix(q->part -= 9); mix(q->part << 1); mix(q->before); mix(q->after); } show(10);
}
struct f6 { unsigned before : 3; signed part : 10; unsigned after : 3; };
static void field_6(void)
{
    struct f6 z, *q = &z; static struct f6 kept; struct { char pad[260]; struct f6 z; } beyond; int i;
    for (i = 0; i < 8; i++) { kept.before = i * 1111; kept.after = i * 2222; mix(kept.part = v[i]); mix(kept.part); mix(kept.part++); mix(++kept.part); mix(kept.part--); mix(--kept.part); mix(kept.part - 5); mix(-kept.part); mix(kept.part ? 2 : 3); mix(kept.part += v[i]); mix(kept.part ^= 21); mix(kept.part |= 8); mix(kept.part &= 29); mix(kept.part *= 3); mix(kept.part /= 2); mix(kept.part %= 7); mix(kept.part <<= 1); mix(kept.part >>= 1); mix(kept.part -= 9); mix(kept.part << 1); mix(kept.before); mix(kept.after); } show(10);
}
struct f7 { unsigned before : 6; signed part : 10; };
static void field_7(void)
{
    struct f7 z, *q = &z; static struct f7 kept; struct { char pad[260]; struct f7 z; } beyond; int i;
    for (i = 0; i < 8; i++) { beyond.z.before = i * 1111; mix(beyond.z.part = v[i]); mix(beyond.z.part); mix(beyond.z.part++); mix(++beyond.z.part); mix(beyond.z.part--); mix(--beyond.z.part); mix(beyond.z.part - 5); mix(-beyond.z.part); mix(beyond.z.part ? 2 : 3); mix(beyond.z.part += v[i]); mix(beyond.z.part ^= 21); mix(beyond.z.part |= 8); mix(beyond.z.part &= 29); mix(beyond.z.part *= 3); mix(beyond.z.part /= 2); mix(beyond.z.part %= 7); mix(beyond.z.part <<= 1); mix(beyond.z.part >>= 1); mix(beyond.z.part -= 9); mix(beyond.z.part << 1); mix(beyond.z.before); } show(10);
}
struct f8 { signed part : 11; unsigned after : 5; };
static void field_8(void)
{
    struct f8 z, *q = &z; static struct f8 kept; struct { char pad[260]; struct f8 z; } beyond; int i;
    for (i = 0; i < 8; i++) { z.after = i * 2222; mix(z.part = v[i]); mix(z.part); mix(z.part++); mix(++z.part); mix(z.part--); mix(--z.part); mix(z.part - 5); mix(-z.part); mix(z.part ? 2 : 3); mix(z.part += v[i]); mix(z.part ^= 21); mix(z.part |= 8); mix(z.part &= 29); mix(z.part *= 3); mix(z.part /= 2); mix(z.part %= 7); mix(z.part <<= 1); mix(z.part >>= 1); mix(z.part -= 9); mix(z.part << 1); mix(z.after); } show(10);
}
struct f9 { unsigned before : 1; signed part : 11; unsigned after : 4; };
static void field_9(void)
{
    struct f9 z, *q = &z; static struct f9 kept; struct { char pad[260]; struct f9 z; } beyond; int i;
    for (i = 0; i < 8; i++) { q->before = i * 1111; q->after = i * 2222; mix(q->part = v[i]); mix(q->part); mix(q->part++); mix(++q->part); mix(q->part--); mix(--q->part); mix(q->part - 5); mix(-q->part); mix(q->part ? 2 : 3); mix(q->part += v[i]); mix(q->part ^= 21); mix(q->part |= 8); mix(q->part &= 29); mix(q->part *= 3); mix(q->part /= 2); mix(q->part %= 7); mix(q->part <<= 1); mix(q->part >>= 1); mix(q->part -= 9); mix(q->part << 1); mix(q->before); mix(q->after); } show(10);
}
struct f10 { unsigned before : 2; signed part : 11; unsigned after : 3; };
static void field_10(void)
{
    struct f10 z, *q = &z; static struct f10 kept; struct { char pad[260]; struct f10 z; } beyond; int i;
    for (i = 0; i < 8; i++) { kept.before = i * 1111; kept.after = i * 2222; mix(kept.part = v[i]); mix(kept.part); mix(kept.part++); mix(++kept.part); mix(kept.part--); mix(--kept.part); mix(kept.part - 5); mix(-kept.part); mix(kept.part ? 2 : 3); mix(kept.part += v[i]); mix(kept.part ^= 21); mix(kept.part |= 8); mix(kept.part &= 29); mix(kept.part *= 3); mix(kept.part /= 2); mix(kept.part %= 7); mix(kept.part <<= 1); mix(kept.part >>= 1); mix(kept.part -= 9); mix(kept.part << 1); mix(kept.before); mix(kept.after); } show(10);
}
struct f11 { unsigned before : 5; signed part : 11; };
static void field_11(void)
{
    struct f11 z, *q = &z; static struct f11 kept; struct { char pad[260]; struct f11 z; } beyond; int i;
    for (i = 0; i < 8; i++) { beyond.z.before = i * 1111; mix(beyond.z.part = v[i]); mix(beyond.z.part); mix(beyond.z.part++); mix(++beyond.z.part); mix(beyond.z.part--); mix(--beyond.z.part); mix(beyond.z.part - 5); mix(-beyond.z.part); mix(beyond.z.part ? 2 : 3); mix(beyond.z.part += v[i]); mix(beyond.z.part ^= 21); mix(beyond.z.part |= 8); mix(beyond.z.part &= 29); mix(beyond.z.part *= 3); mix(beyond.z.part /= 2); mix(beyond.z.part %= 7); mix(beyond.z.part <<= 1); mix(beyond.z.part >>= 1); mix(beyond.z.part -= 9); mix(beyond.z.part << 1); mix(beyond.z.before); } show(10);
}
int main(void)
{
    field_0();
    field_1();
    field_2();
    field_3();
    field_4();
    field_5();
    field_6();
    field_7();
    field_8();
    field_9();
    field_10();
    field_11();
    return 0;
}
