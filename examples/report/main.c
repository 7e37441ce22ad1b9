/* Reports the words of its input, the most frequent ones first. */
#include <stdio.h>
#include <stdlib.h>
#include <string.h>
#include "tally.h"

static void read_words(void)
{
    char line[80];
    char *word;

    while (fgets(line, sizeof line, stdin))
        for (word = strtok(line, " \t\n.,;"); word; word = strtok(NULL, " \t\n.,;"))
            if (!tally_add(word)) {
                fputs("too many words\n", stderr);
                exit(EXIT_FAILURE);
            }
}

int main(void)
{
    const struct tally *tally;
    int count;

    read_words();
    for (tally = tally_sorted(&count); count; --count, ++tally)
        printf("%3u %s\n", tally->count, tally->word);
    return EXIT_SUCCESS;
}
