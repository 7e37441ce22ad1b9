/* The outer interpreter: reads words, and does or compiles them. */
#include <stdio.h>
#include <stdlib.h>
#include <string.h>
#include "forth.h"

static void do_word(const char *text)
{
    char *end;
    long n;
    int word = find(text);

    if (word >= 0) {
        if (is_compiling && !words[word].is_immediate)
            compile(word);
        else
            execute(word);
        return;
    }
    n = strtol(text, &end, 10);
    if (*end || n < -32767L - 1 || n > 32767)
        fail("unknown word");
    else if (is_compiling) {
        compile(word_literal);
        compile((int)n);
    } else
        push((int)n);
}

int main(void)
{
    char text[NAME_SIZE];

    define_values();
    define_control();
    while (next_word(text, NAME_SIZE)) {
        if (!strcmp(text, "bye"))
            break;
        do_word(text);
        if (failure) {
            fputs(text, stdout);
            fputs(": ", stdout);
            puts(failure);
            failure = NULL;
            skip_line();
        }
    }
    return depth();
}
