/* Functions as values: tables, results, parameters. */
#include "show.h"

static int twice(int x) { return 2 * x; }
static int plus3(int x) { return x + 3; }
static int negate(int x) { return -x; }

static int (*table[3])(int) = { twice, plus3, &negate };

static int (*pick(int n))(int)
{
    return table[n % 3];
}

static int fold(int (*f)(int), int n, int x)
{
    while (n-- > 0)
        x = (*f)(x);
    return x;
}

static int call(int f(int), int x)
{
    return (****f)(x);
}

struct operation {
    char name;
    int (*apply)(int, int);
};

static int add(int a, int b) { return a + b; }
static int sub(int a, int b) { return a - b; }
static int mul(int a, int b) { return a * b; }

static struct operation operations[] = { { '+', add }, { '-', sub }, { '*', mul }, { 0, 0 } };

static int apply(char name, int a, int b)
{
    struct operation *o;

    for (o = operations; o->apply; o++)
        if (o->name == name)
            return o->apply(a, b);
    return -1;
}

typedef int unary(int);
typedef unary *chooser(int);

static unary *through(chooser *c, int n)
{
    return c(n);
}

int main(void)
{
    int (*(*choose)(int))(int) = pick;
    unary *same = twice;

    line(pick(4)(10));
    line(fold(twice, 5, 3));
    line(call(negate, 7));
    line(pick(0) == twice);
    line(pick(1) != plus3);
    line(choose(2)(8));
    line((*(*choose)(1))(8));
    line(apply('+', 7, 5) + apply('-', 7, 5) + apply('*', 7, 5));
    line(apply('?', 1, 1));
    line(through(pick, 0)(21));
    line((same ? same : plus3)(4));
    line(table[1](table[0](table[2](1))));
    return 0;
}
