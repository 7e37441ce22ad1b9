#include "show.h"

static int find(int want)
{
    int i, j, n = 0;
    for (i = 0; i < 5; i++)
        for (j = 0; j < 5; j++) {
            if (i * j == want) goto found;
            if (i + j > 6) goto next;
            n++;
        next: ;
        }
    return -1;
found:
    return n * 100 + i * 10 + j;
}
static int machine(const char *p)
{
    int n = 0;
start:
    switch (*p++) {
    case 'a': n += 1; goto start;
    case 'b': n *= 2; goto start;
    case 'c': { int k = 3; while (k) { k--; n += k; if (n > 50) goto out; } goto start; }
    case 0: break;
    default: n = -n; goto start;
    }
out:
    return n;
}
int main(void) { line(find(6)); line(find(12)); line(find(99)); line(machine("aabbc")); line(machine("aaaabbbbcc")); line(machine("ab-b")); 
    { int i = 0; switch (i) { for (; i < 3; i++) { case 0: line(i); } case 5: line(50); } }
    { int i; for (i = 0; i < 6; i++) { switch (i) { case 1: continue; case 4: break; default: line(i); continue; } line(44); break; } }
    return 0; }
