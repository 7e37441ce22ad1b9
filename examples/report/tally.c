/* Words and how often each has come. */
#include <stdlib.h>
#include <string.h>
#include "tally.h"

static struct tally tallies[TALLY_WORDS];
static int used;

static void copy_cut(char *to, const char *from)
{
    int left = TALLY_LENGTH;

    while (*from && left--)
        *to++ = *from++;
    *to = 0;
}

int tally_add(const char *word)
{
    char cut[TALLY_LENGTH + 1];
    int i;

    copy_cut(cut, word);
    for (i = 0; i < used; ++i)
        if (strcmp(tallies[i].word, cut) == 0) {
            ++tallies[i].count;
            return 1;
        }
    if (used == TALLY_WORDS)
        return 0;
    strcpy(tallies[used].word, cut);
    tallies[used++].count = 1;
    return 1;
}

static int by_count(const void *a, const void *b)
{
    const struct tally *x = a, *y = b;

    if (x->count != y->count)
        return x->count < y->count ? 1 : -1;
    return strcmp(x->word, y->word);
}

const struct tally *tally_sorted(int *count)
{
    qsort(tallies, used, sizeof tallies[0], by_count);
    *count = used;
    return tallies;
}
