/* Objects that live for the whole run, and what hides them. */
#include "show.h"

static int n = 5;
extern int shared;

static int next(void)
{
    static int n = 10, step = 3;

    n += step;
    step = -step + 1;
    return n;
}

static int depth(int levels)
{
    static int deepest, now;
    int result;

    now++;
    if (now > deepest)
        deepest = now;
    if (levels > 0) {
        depth(levels - 1);
        if (levels & 1)
            depth(levels / 2);
    }
    result = deepest * 10 + now;
    now--;
    return result;
}

static int *slot(int i)
{
    static int slots[4] = { 1, 2 };

    return &slots[i];
}

static int hidden(int n)
{
    {
        extern int shared;
        int n = shared;

        {
            static int n = 40;

            n++;
            shared += n;
        }
        shared += n;
    }
    return n + shared;
}

int shared = 1000;

int main(void)
{
    int i;

    for (i = 0; i < 4; i++)
        line(next());
    line(n);
    line(depth(7));
    line(depth(3));
    *slot(2) = 30;
    *slot(0) += *slot(1) + *slot(2);
    line(*slot(0) + *slot(3));
    line(hidden(3));
    line(hidden(4));
    line(shared);
    {
        int n = n = 7;

        line(n);
    }
    line(n);
    return 0;
}
