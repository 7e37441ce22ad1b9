/* Writes the tokens of its input, and then its names with how often each came. */
#include <stdio.h>
#include <stdlib.h>
#include <string.h>
#include "token.h"

struct name {
    struct name *next;
    unsigned count;
    char text[1]; /* and as many bytes more as it needs */
};

#define CHAINS 16

static struct name *chains[CHAINS];
static unsigned name_count;

static const char *const kinds[] = { "end", "name", "keyword", "number", "string", "operator", "wrong" };

static unsigned chain_of(const char *text)
{
    unsigned hash = 0;

    while (*text)
        hash = hash * 31 + (unsigned char)*text++;
    return hash % CHAINS;
}

/* Counts a name; the program ends where there is no memory. */
static void count_name(const char *text)
{
    struct name **chain = &chains[chain_of(text)], *name;

    for (name = *chain; name; name = name->next)
        if (!strcmp(name->text, text)) {
            ++name->count;
            return;
        }
    name = malloc(sizeof *name + strlen(text));
    if (!name) {
        fputs("no memory\n", stderr);
        exit(EXIT_FAILURE);
    }
    strcpy(name->text, text);
    name->count = 1;
    name->next = *chain;
    *chain = name;
    ++name_count;
}

static void put_number(unsigned long n)
{
    char digits[11];

    fputs(ultoa(n, digits, 10), stdout);
}

static void show(const struct token *token)
{
    put_number(token->line);
    putchar(' ');
    fputs(kinds[token->kind], stdout);
    putchar(' ');
    if (token->kind == NUMBER)
        put_number(token->value);
    else
        fputs(token->text, stdout);
    putchar('\n');
}

static int by_text(const void *a, const void *b)
{
    return strcmp((*(struct name *const *)a)->text, (*(struct name *const *)b)->text);
}

static void show_names(void)
{
    struct name **all = malloc((name_count + 1) * sizeof *all), *name;
    unsigned count = 0, i;

    if (!all)
        exit(EXIT_FAILURE);
    for (i = 0; i < CHAINS; ++i)
        for (name = chains[i]; name; name = name->next)
            all[count++] = name;
    qsort(all, count, sizeof *all, by_text);
    for (i = 0; i < count; ++i) {
        fputs(all[i]->text, stdout);
        putchar(' ');
        put_number(all[i]->count);
        putchar('\n');
    }
    free(all);
}

int main(void)
{
    struct token token;
    int wrong = 0;

    for (next_token(&token); token.kind != END; next_token(&token)) {
        show(&token);
        if (token.kind == NAME)
            count_name(token.text);
        if (token.kind == WRONG)
            ++wrong;
    }
    show_names();
    return wrong;
}
