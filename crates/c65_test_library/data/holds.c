/* assert.h: a test that holds, one that is not looked at, and one that does not hold (C90 7.2). */
#include <assert.h>
#include "show.h"

static int looked;

static int look(void)
{
    return ++looked;
}

static void plain(void)
{
    assert(look() == 1);
    assert(looked);
}

#define NDEBUG
#include <assert.h>

static void without(void)
{
    assert(look() == 9);
}

#undef NDEBUG
#include <assert.h>

int main(void)
{
    plain();
    without();
    show("looked", looked);
    if (looked)
        assert(looked == 2 && "two looks");
    else
        show("never", 0);
    show("never", 1);
    return 0;
}
