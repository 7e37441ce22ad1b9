/* Jumps into and out of blocks and loops. */
#include "show.h"

static int into(int n)
{
    int total = 0;

    if (n > 2)
        goto inside;
    {
        int k = 5;

        total += k;
    inside:
        k = n * 2;
        total += k;
        if (total < 20) {
            n++;
            goto inside;
        }
    }
    return total;
}

static int cases(int n)
{
    int r = 0;

    switch (n) {
    default:
        r = 100;
        break;
    case 1:
        for (n = 0; n < 3; n++) {
    case 2:
            r += 10;
            if (n == 2)
                break;
        }
        r += 1;
    case 3:
        while (r < 25) {
            r += 5;
    case 4:
            r++;
        }
    }
    return r;
}

static int leave(int limit)
{
    int i, j, seen = 0;

    for (i = 0; ; i++) {
        for (j = 0; j <= i; j++) {
            if (i * j > limit)
                goto out;
            if (j == 3)
                goto next;
            seen++;
        }
    next:
        continue;
    }
out:
    return i * 1000 + j * 100 + seen;
}

static int both(int n)
{
    int sum = 0;

    do {
        switch (n % 3) {
        case 0:
            continue;
        case 1:
            sum += 1;
            break;
        default:
            sum += 100;
        }
        sum += 10;
    } while (n-- > 0);
    return sum;
}

int main(void)
{
    int i;

    line(into(1));
    line(into(3));
    line(into(10));
    for (i = 1; i < 6; i++)
        line(cases(i));
    line(leave(10));
    line(both(7));
    return 0;
}
