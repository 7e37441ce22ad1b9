/* Words and how often each has come. */
#ifndef TALLY_H
#define TALLY_H

#define TALLY_WORDS 100
#define TALLY_LENGTH 15

struct tally {
    char word[TALLY_LENGTH + 1];
    unsigned count;
};

/* Counts a word, cut to its length; 0 where there is no room for another one. */
int tally_add(const char *word);

/* The words, the most frequent ones first, and equal ones by their letters. */
const struct tally *tally_sorted(int *count);

#endif
