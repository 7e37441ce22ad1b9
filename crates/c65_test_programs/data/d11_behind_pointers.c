/* Places behind pointers: offsets that one byte tells and such that are added, and stores that read their value or their pointer. */
int printf(const char *form, ...);

struct inner { char c; int v; signed char s; };

struct node {
    int value;
    char letter;
    signed char small;
    struct node *next;
    struct inner in;
    int row[4];
    char name[9];
    long wide;
    unsigned low : 3;
    signed int signed_part : 5;
    unsigned high : 8;
    struct inner many[3];
};

struct long_way { char pad[249]; char at249; char at250; char at251; int at252; char at254; char more[20]; int last; };
struct odd { char pad[248]; int at248; int at250; int at252; };

union both { unsigned word; unsigned char bytes[4]; struct { unsigned char first; unsigned second; } shifted; };

struct node one, two, three;
struct long_way far_away;
struct odd odds;
char page[300];
int table[20];

static int count;
static int next_count(void) { return ++count; }
/* operands go from left to right */
static struct node *pick(struct node *p) { count += 10; return p; }

static void links(struct node *p)
{
    struct node *q = &three;
    p->next = &two;
    p->next->next = q;
    q->next = p;
    p->value = 5;
    p->next->value = 6;
    p->next->next->value = -7;
    printf("%d %d %d %d\n", one.value, two.value, three.value, p->next->next->next == p);
    p->next = p->next->next;
    printf("%d\n", p->next->value);
    p = p->next = p->next->next;
    printf("%d\n", p->value);
}

static void members(struct node *p, int n, char c)
{
    p->letter = 'a';
    p->small = -3;
    p->in.c = c;
    p->in.v = n;
    p->in.s = c;
    p->row[0] = n;
    p->row[3] = 300;
    p->name[0] = 'n';
    p->name[8] = c;
    p->row[1] = p->row[0] + p->in.v;
    p->row[2] = p->small;
    p->many[2].v = p->letter;
    p->many[1].s = p->many[2].v = 1000;
    printf("%d %d %d %d %d %d %d\n", p->letter, p->small, p->in.c, p->in.v, p->in.s, p->name[0], p->name[8]);
    printf("%d %d %d %d %d %d\n", p->row[0], p->row[1], p->row[2], p->row[3], p->many[2].v, p->many[1].s);
    printf("%d %d\n", p->small = -100, p->letter = 66);
    printf("%d\n", p->value = n = -2);
    printf("%d\n", (p->value = c) + 1);
}

static void units(struct node *p, int n)
{
    p->low = 5;
    p->signed_part = -6;
    p->high = n;
    p->low += 2;
    p->signed_part = p->signed_part + 1;
    p->high++;
    printf("%d %d %d\n", (int)p->low, p->signed_part, (int)p->high);
    p->wide = 100000L;
    p->wide += n;
    p->next->wide = p->wide;
    printf("%ld %ld\n", p->wide, p->next->wide);
    p->next->low = p->low;
    printf("%d\n", (int)p->next->low);
}

static void limits(struct long_way *p, struct odd *o, int n)
{
    p->at249 = 1;
    p->at250 = 2;
    p->at251 = 3;
    p->at252 = 4;
    p->at254 = n;
    p->last = n + 1;
    p->more[19] = (char)n;
    printf("%d %d %d %d %d %d %d\n", p->at249, p->at250, p->at251, p->at252, p->at254, p->last, p->more[19]);
    printf("%d %d %d %d\n", far_away.at250, far_away.at251, far_away.at252, far_away.last);
    o->at248 = 1000;
    o->at250 = n;
    o->at252 = o->at250 + o->at248;
    printf("%d %d %d\n", odds.at248, odds.at250, odds.at252);
}

static void sums(char *p, int *q, int n)
{
    *p = 1;
    p[1] = 2;
    p[250] = 3;
    p[251] = 4;
    *(p + 255) = n;
    *(p + 256) = p[250];
    printf("%d %d %d %d %d %d\n", page[0], page[1], page[250], page[251], page[255], page[256]);
    p += 100;
    p[-1] = 9;
    p[0] = p[-1] + p[150];
    printf("%d %d\n", page[99], page[100]);
    *q = n;
    q[1] = *q + 1;
    q[2] = q[1];
    q[3] = q[2] = -1;
    *(q + 4 + 1) = q[3] + q[1];
    *++q = 77;
    q[-1] = q[0];
    printf("%d %d %d %d %d\n", table[0], table[1], table[2], table[3], table[5]);
}

static void orders(struct node *p, struct node *q)
{
    count = 0;
    p->value = next_count();
    pick(p)->value = next_count();
    printf("%d %d\n", p->value, count);
    /* from left to right */
    pick(p)->small = count;
    printf("%d\n", p->small);
    p->next = q;
    p->next->value = 21;
    printf("%d\n", two.value);
    p->value = q->value++ + 3;
    p->row[next_count() & 3] = 11;
    p++->letter = 'z';
    printf("%d %d %d %d\n", q->value, one.value, one.letter, p == &one + 1);
}

int main(void)
{
    struct node local;
    struct node *l = &local;
    links(&one);
    members(&two, 1234, 99);
    one.next = &three;
    units(&one, 200);
    limits(&far_away, &odds, 88);
    sums(page, table, 40);
    two.value = 17;
    orders(&one, &two);
    local.next = l;
    l->next->value = 31;
    l->next->next->in.v = l->value;
    (*l).in.c = 'q';
    (&*l)->name[3] = (*&local).in.c;
    printf("%d %d %d\n", local.value, local.in.v, local.name[3]);
    {
        union both u;
        unsigned char *bytes = u.bytes;
        u.word = 0;
        u.bytes[2] = u.bytes[3] = 7;
        bytes[1] = 2;
        printf("%d %d %d\n", u.bytes[1], bytes[2], u.bytes[3]);
    }
    {
        /* a word that is read between two stores of its own bytes */
        unsigned char b[4];
        unsigned *w = (unsigned *)b, *x = (unsigned *)(b + 1);
        b[0] = 1, b[1] = 2, b[2] = 3, b[3] = 4;
        *x = *w;
        printf("%d %d %d %d\n", b[0], b[1], b[2], b[3]);
        b[0] = 1, b[1] = 2, b[2] = 3, b[3] = 4;
        *w = *x;
        printf("%d %d %d %d\n", b[0], b[1], b[2], b[3]);
    }
    return 0;
}
