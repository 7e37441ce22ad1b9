/* Bit-fields: days packed into two bytes, flags, and a queue of packed orders. */
#include <stdio.h>

struct day {
    unsigned day : 5;
    unsigned month : 4;
    unsigned year : 7;
};

struct order {
    unsigned kind : 3;
    unsigned urgent : 1;
    unsigned count : 9;
    struct day due;
    unsigned char next;
};

static struct order orders[40];
static const unsigned char lengths[13] = {0, 31, 28, 31, 30, 31, 30, 31, 31, 30, 31, 30, 31};

static void next_day(struct day *d)
{
    unsigned most = lengths[d->month];

    if (d->month == 2 && d->year % 4 == 0)
        most++;
    if (d->day < most)
        d->day = d->day + 1;
    else {
        d->day = 1;
        if (d->month == 12) {
            d->month = 1;
            d->year = d->year + 1;
        } else
            d->month = d->month + 1;
    }
}

static int is_before(const struct order *a, const struct order *b)
{
    if (a->urgent != b->urgent)
        return a->urgent > b->urgent;
    if (a->due.year != b->due.year)
        return a->due.year < b->due.year;
    if (a->due.month != b->due.month)
        return a->due.month < b->due.month;
    return a->due.day < b->due.day;
}

static unsigned char insert(unsigned char head, unsigned char at)
{
    unsigned char before = 255, here = head;

    while (here != 255 && !is_before(&orders[at], &orders[here])) {
        before = here;
        here = orders[here].next;
    }
    orders[at].next = here;
    if (before == 255)
        return at;
    orders[before].next = at;
    return head;
}

static void print(unsigned n)
{
    if (n >= 10)
        print(n / 10);
    putchar('0' + (int)(n % 10));
}

int main(void)
{
    struct day today;
    unsigned sum = 0;
    unsigned char i, head = 255;
    int n;

    today.day = 27;
    today.month = 2;
    today.year = 96;
    for (i = 0; i < 40; i++) {
        orders[i].kind = i * 5;
        orders[i].urgent = i % 7 == 3;
        orders[i].count = 13u * i + 1;
        orders[i].due = today;
        for (n = 0; n < 23 - (i & 15); n++)
            next_day(i & 1 ? &today : &orders[i].due);
        head = insert(head, i);
    }
    for (i = head; i != 255; i = orders[i].next) {
        print(i);
        putchar(orders[i].urgent ? '!' : ' ');
        sum = sum * 5u + orders[i].count * orders[i].kind + orders[i].due.day;
    }
    putchar('\n');
    print(today.year);
    putchar('/');
    print(today.month);
    putchar('/');
    print(today.day);
    putchar(' ');
    print(sum);
    putchar('\n');
    return sum & 255;
}
