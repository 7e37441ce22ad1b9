/* Initialisers with inner braces and without, of nested structures, unions and arrays. */
#include "show.h"

struct point { int x, y; };
struct shape { struct point a, b; char name[4]; int more[2][3]; };
union either { char bytes[2]; int word; };
struct mixed { char tag; union either of; struct { int p, q[2]; } in; };

static struct shape shapes[] = {
    { { 1, 2 }, { 3, 4 }, "ab", { { 5 }, { 6, 7 } } },
    8, 9, 10, 11, { 'x', 'y' }, 12, 13, 14, 15, 16, 17,
    { { 18 }, 19 }
};
static char texts[3][3] = { "ab", "cde", { 'f' } };
static int open[][2] = { 1, 2, 3 };
static struct mixed mixed[2] = { 1, { 2, 3 }, { 4, 5 }, 6, 7, 8, 9, 10 };
static char *names[] = { "one", "two" "three", 0 };
static int zeros[5] = { 1 };

static void show(struct shape *s)
{
    int i;

    line(s->a.x + s->a.y * 10 + s->b.x * 100 + s->b.y * 1000);
    puts(s->name);
    for (i = 0; i < 6; i++)
        line(s->more[i / 3][i % 3]);
}

int main(void)
{
    struct mixed local[2] = { { 1, { { 2, 3 } }, { 4, { 5, 6 } } }, 7, 8, 9, 10, 11, 12 };
    char text[] = "x\0y";
    int i;

    line(sizeof shapes / sizeof shapes[0]);
    for (i = 0; i < 3; i++)
        show(&shapes[i]);
    for (i = 0; i < 9; i++)
        line(texts[i / 3][i % 3]);
    line(sizeof open / sizeof open[0]);
    line(open[1][0] * 10 + open[1][1]);
    for (i = 0; i < 2; i++) {
        line(mixed[i].tag);
        line(mixed[i].of.word);
        line(mixed[i].in.p * 100 + mixed[i].in.q[0] * 10 + mixed[i].in.q[1]);
        line(local[i].tag);
        line(local[i].of.word);
        line(local[i].in.p * 100 + local[i].in.q[0] * 10 + local[i].in.q[1]);
    }
    puts(names[1]);
    line(names[2] == 0);
    line(sizeof text);
    line(zeros[0] + zeros[4]);
    return 0;
}
