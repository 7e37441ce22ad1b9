/* The stacks, the dictionary and the inner interpreter. */
#include <ctype.h>
#include <stdio.h>
#include <string.h>
#include "forth.h"

#define DEPTH 32

struct word words[WORDS];
int word_count;
int cells[CELLS];
int here;
int is_compiling;
const char *failure;

static int stack[DEPTH], returns[DEPTH];
static int used, returns_used;
static int place; /* the cell that is done next */
static int last = '\n'; /* the byte that was read last */

void fail(const char *why)
{
    if (!failure)
        failure = why;
    used = returns_used = 0;
    is_compiling = 0;
}

void push(int n)
{
    if (used == DEPTH)
        fail("stack full");
    else
        stack[used++] = n;
}

int pop(void)
{
    if (!used) {
        fail("stack empty");
        return 0;
    }
    return stack[--used];
}

int depth(void)
{
    return used;
}

void push_return(int n)
{
    if (returns_used == DEPTH)
        fail("too deep");
    else
        returns[returns_used++] = n;
}

int pop_return(void)
{
    if (!returns_used) {
        fail("no loop");
        return 0;
    }
    return returns[--returns_used];
}

int top_return(void)
{
    return returns_used ? returns[returns_used - 1] : 0;
}

int find(const char *name)
{
    int i;

    for (i = word_count - 1; i >= 0; --i)
        if (!strcmp(words[i].name, name))
            return i;
    return -1;
}

void define(const char *name, void (*act)(void), int is_immediate)
{
    struct word *word = &words[word_count];

    if (word_count == WORDS) {
        fail("dictionary full");
        return;
    }
    strncpy(word->name, name, NAME_SIZE - 1);
    word->act = act;
    word->body = here;
    word->is_immediate = is_immediate;
    ++word_count;
}

void compile(int cell)
{
    if (here == CELLS)
        fail("cells full");
    else
        cells[here++] = cell;
}

int next_cell(void)
{
    return cells[place++];
}

void jump(int cell)
{
    place = cell;
}

/* Cells hold numbers of words. A body ends with `exit`, which goes back; -1 ends the outermost one. */
void execute(int word)
{
    int base = place;

    place = -1;
    do {
        if (words[word].act)
            words[word].act();
        else {
            push_return(place);
            place = words[word].body;
        }
        if (failure || place < 0)
            break;
        word = cells[place++];
    } while (1);
    place = base;
}

int next_until(char *text, int size, int end)
{
    int length = 0;

    while ((last = getchar()) != EOF && last != end && last != '\n')
        if (length < size - 1)
            text[length++] = last;
    text[length] = 0;
    return length;
}

void skip_line(void)
{
    while (last != EOF && last != '\n')
        last = getchar();
}

int next_word(char *text, int size)
{
    int length = 0;

    do
        last = getchar();
    while (isspace(last));
    for (; last != EOF && !isspace(last); last = getchar())
        if (length < size - 1)
            text[length++] = last;
    text[length] = 0;
    return length;
}
