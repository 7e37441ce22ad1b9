/* Functions that call themselves and each other. */
#include "show.h"

static int is_odd(unsigned n);

static int is_even(unsigned n)
{
    return n == 0 ? 1 : is_odd(n - 1);
}

static int is_odd(unsigned n)
{
    return n == 0 ? 0 : is_even(n - 1);
}

static int ackermann(int m, int n)
{
    if (m == 0)
        return n + 1;
    return n == 0 ? ackermann(m - 1, 1) : ackermann(m - 1, ackermann(m, n - 1));
}

static int moves;

static void hanoi(int n, char from, char to, char by)
{
    if (n == 0)
        return;
    hanoi(n - 1, from, by, to);
    moves++;
    if (moves <= 5) {
        putchar(from);
        putchar(to);
    }
    hanoi(n - 1, by, to, from);
}

static int gcd(int a, int b)
{
    return b ? gcd(b, a % b) : a;
}

static int count, sum;

static void permute(int list[], int at, int length)
{
    int i, t;

    if (at == length) {
        count++;
        sum += list[0] * list[length - 1];
        return;
    }
    for (i = at; i < length; i++) {
        t = list[at]; list[at] = list[i]; list[i] = t;
        permute(list, at + 1, length);
        t = list[at]; list[at] = list[i]; list[i] = t;
    }
}

static long choose(int n, int k)
{
    return k == 0 || k == n ? 1L : choose(n - 1, k - 1) + choose(n - 1, k);
}

int main(void)
{
    int list[5];
    int i;

    line(is_even(20) * 10 + is_odd(20));
    line(ackermann(2, 3));
    hanoi(6, 'a', 'c', 'b');
    putchar(10);
    line(moves);
    line(gcd(1071, 462));
    for (i = 0; i < 5; i++)
        list[i] = i + 1;
    permute(list, 0, 5);
    line(count);
    line(sum);
    line((int) (choose(12, 6) - 900));
    return 0;
}
