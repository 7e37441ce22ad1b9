#include "show.h"

static int add(int a, int b) { return a + b; }
static int sub(int a, int b) { return a - b; }
static int mul(int a, int b) { return a * b; }
typedef int (*op)(int, int);
op table[] = { add, sub, &mul };
static int apply(int f(int, int), int a, int b) { return f(a, b); }
static op pick(int i) { return table[i]; }
struct entry { char name; int (*run)(int, int); } entries[2] = { { '+', add }, { '-', sub } };
static void hello(void) { putchar('h'); putchar(10); }
int main(void)
{
    int i;
    int (*p)(int, int) = mul;
    void (*v)(void) = hello;
    for (i = 0; i < 3; i++) line(table[i](12, 5));
    line(apply(sub, 3, 9)); line(p(6, 7)); line((*p)(2, 3)); line((**p)(2, 4)); line(pick(1)(100, 1));
    for (i = 0; i < 2; i++) { putchar(entries[i].name); line(entries[i].run(8, 2)); }
    v(); (*v)(); line(p == mul); line(p != 0); p = 0; line(!p); line((i ? add : sub)(1, 2));
    return 0;
}
