/* Macros that rescan, stringize and paste, and conditions that use them. */
#include "show.h"

static int self = 3, self2 = 5, v2 = 40, f = 7;

#define EMPTY
#define JOIN(a, b) a ## b
#define XJOIN(a, b) JOIN(a, b)
#define TEXT(x) #x
#define XTEXT(x) TEXT(x)
#define f(x) x + f
#define self self * 2
#define LIST X(one, 1) X(two, 2) X(three, 3)
#define CALL(m, x) m x
#define COMMA ,
#define SECOND(a, b) b
#define LATER(x) SECOND(x)
#define add(a, b) ((a) + (b))
#define FIRST_LINE __LINE__

#if defined EMPTY && !defined(NOTHING) && (3 * 4 - 2 == 10 ? 1 : 0)
#define MODE 2
#elif 1
#define MODE 3
#else
#error not here
#endif

#if MODE == 3 || (0 && 1 / 0)
#define KIND "three"
#elif MODE == 2 && -1 < 0u
#define KIND "unsigned"
#elif MODE == 2 && -1 >> 1 == -1 && 'a' + 1 == 'b'
#define KIND "two"
#endif

#define X(name, n) static int JOIN(get_, name)(void) { return n; }
LIST
#undef X

#define X(name, n) TEXT(name) ":" #n " "
static char all[] = LIST;
#undef X

int main(void)
{
    puts(KIND);
    puts(all);
    line(get_one() + get_two() * 10 + get_three() * 100);
    line(f(1));
    line(f (3) EMPTY);
    line(self + 1);
    line(XJOIN(v, MODE) + JOIN(self, 2) + JOIN(0x, F));
    puts(TEXT( a  +  "b\n" 'c' ));
    puts(TEXT(MODE) XTEXT(MODE) XTEXT(XJOIN(MODE, 1)));
    puts(XTEXT(f(f)(x)));
    line(CALL(add, (4, 5)));
    line(LATER(6 COMMA 7));
    line(add((1, 2), add(3, add(4, 5))));
    line(__LINE__ - FIRST_LINE);
#line 100
    line(__LINE__);
    line(add(__LINE__,
        0));
#undef add
#define add(a) (a)
    line(add(8));
    return 0 ?
#ifdef NOTHING
        1 : 1
#else
        2 : 0
#endif
        ;
}
