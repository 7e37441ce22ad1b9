#include "show.h"

add(a, b) int a, b; { return a + b; }
int half(c) char c; { return c / 2; }
extern undeclared();
main()
{
    line(add(2, 3)); line(half(200)); line(other(5));
}
int other(x) int x; { return x * x; }
