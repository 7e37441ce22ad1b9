/* Structures through pointers: a search tree and lists, in a pool of nodes. */
#include <stdio.h>

#define NODES 250

struct node {
    struct node *left, *right;
    int key;
    unsigned char count;
    long weight;
};

struct cell {
    struct cell *next;
    struct node *node;
};

static struct node pool[NODES];
static struct cell cells[NODES];
static int used;

static struct node *make(int key)
{
    struct node *n = &pool[used++];

    n->left = n->right = 0;
    n->key = key;
    n->count = 1;
    n->weight = 0;
    return n;
}

static struct node *insert(struct node *root, int key)
{
    struct node *here = root, **link = &root;

    while ((here = *link) != 0) {
        if (here->key == key) {
            here->count++;
            return root;
        }
        link = key < here->key ? &here->left : &here->right;
    }
    *link = make(key);
    return root;
}

static int depth(const struct node *n)
{
    int left, right;

    if (!n)
        return 0;
    left = depth(n->left);
    right = depth(n->right);
    return 1 + (left > right ? left : right);
}

static void weigh(struct node *n, long above)
{
    if (n == 0)
        return;
    n->weight = above + n->key * (long)n->count;
    weigh(n->left, n->weight);
    weigh(n->right, n->weight);
}

/* The nodes in the order of their keys, each cell before the older ones. */
static struct cell *list(struct node *n, struct cell *rest)
{
    struct cell *c;

    if (!n)
        return rest;
    rest = list(n->right, rest);
    c = &cells[n - pool];
    c->node = n;
    c->next = rest;
    return list(n->left, c);
}

static struct cell *reverse(struct cell *c)
{
    struct cell *done = 0, *next;

    for (; c; c = next) {
        next = c->next;
        c->next = done;
        done = c;
    }
    return done;
}

static void print(long n)
{
    if (n < 0) {
        putchar('-');
        n = -n;
    }
    if (n >= 10)
        print(n / 10);
    putchar('0' + (int)(n % 10));
}

int main(void)
{
    struct node *root = 0;
    struct cell *c;
    unsigned value = 7, i;
    long sum = 0;

    for (i = 0; i < 400; i++) {
        value = value * 13u + 77u;
        root = insert(root, (int)(value & 1023u) - 512);
        if (used > NODES - 10)
            break;
    }
    weigh(root, 1000);
    for (c = reverse(list(root, 0)); c; c = c->next)
        sum = sum / 3 + c->node->weight - c->node->key;
    print(used);
    putchar(' ');
    print(depth(root));
    putchar(' ');
    print(sum);
    putchar('\n');
    return depth(root);
}
