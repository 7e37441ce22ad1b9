#include "show.h"

typedef int number, *pointer, vector[3];
typedef int (*function)(void);
typedef struct node node;
struct node { node *left, *right; int key; };
static node pool[10];
static int used;
static node *insert(node *t, int key)
{
    if (!t) { t = &pool[used++]; t->key = key; t->left = t->right = (node *)0; return t; }
    if (key < t->key) t->left = insert(t->left, key); else t->right = insert(t->right, key);
    return t;
}
static void walk(node *t) { if (t) { walk(t->left); num(t->key); putchar(32); walk(t->right); } }
static int seven(void) { return 7; }
static const int fixed = 5;
int main(void)
{
    number n = 3; pointer p = &n; vector v; function f = seven; node *t = 0; const char *s = "x"; volatile int w = 4; void *any = &n;
    int (*row)[3]; int grid[2][3] = { { 1, 2, 3 }, { 4, 5, 6 } };
    v[2] = *p; line(v[2]); line(f()); t = insert(t, 5); insert(t, 2); insert(t, 8); insert(t, 1); walk(t); putchar(10);
    line(*s); line(w * fixed); line(*(int *)any); row = grid; row++; line((*row)[1]); line(sizeof(vector) / sizeof(int)); line(sizeof *row / sizeof **row);
    { typedef char number; number c = 65; putchar(c); putchar(10); }
    return 0;
}
