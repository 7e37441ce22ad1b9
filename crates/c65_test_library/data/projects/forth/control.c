/* Words that compile: definitions, conditions, loops, texts and variables. */
#include <stdio.h>
#include "forth.h"

int word_literal, word_branch, word_branch_zero, word_exit, word_do, word_loop;
static int word_text;

static void literal(void) { push(next_cell()); }
static void branch(void) { jump(next_cell()); }
static void leave(void) { jump(pop_return()); }
static void index(void) { push(top_return()); }

static void branch_zero(void)
{
    int target = next_cell();

    if (!pop())
        jump(target);
}

/* A loop's end and index stand above the address to return to. */
static void begin_loop(void)
{
    int first = pop();

    push_return(pop());
    push_return(first);
}

static void end_loop(void)
{
    int target = next_cell(), at = pop_return() + 1, end = pop_return();

    if (at < end) {
        push_return(end);
        push_return(at);
        jump(target);
    }
}

static void write_text(void)
{
    int c;

    while ((c = next_cell()) != 0)
        putchar(c);
}

static void colon(void)
{
    char name[NAME_SIZE];

    if (is_compiling || !next_word(name, NAME_SIZE)) {
        fail("no definition here");
        return;
    }
    define(name, NULL, 0);
    is_compiling = 1;
}

static void semicolon(void)
{
    compile(word_exit);
    is_compiling = 0;
}

static void if_word(void)
{
    compile(word_branch_zero);
    push(here);
    compile(0);
}

static void else_word(void)
{
    int before = pop();

    compile(word_branch);
    push(here);
    compile(0);
    cells[before] = here;
}

static void then_word(void) { cells[pop()] = here; }
static void begin_word(void) { push(here); }

static void until_word(void)
{
    compile(word_branch_zero);
    compile(pop());
}

static void do_word(void)
{
    compile(word_do);
    push(here);
}

static void loop_word(void)
{
    compile(word_loop);
    compile(pop());
}

static void recurse_word(void) { compile(word_count - 1); }

static void text_word(void)
{
    char text[64];
    int i;

    next_until(text, sizeof text, '"');
    if (!is_compiling) {
        fputs(text, stdout);
        return;
    }
    compile(word_text);
    for (i = 0; text[i]; ++i)
        compile(text[i]);
    compile(0);
}

static void comment_word(void)
{
    char text[2];

    next_until(text, sizeof text, ')');
}

/* A variable's word pushes the number of the cell behind it. */
static void variable(void)
{
    char name[NAME_SIZE];

    if (!next_word(name, NAME_SIZE)) {
        fail("a name is wanted");
        return;
    }
    define(name, NULL, 0);
    compile(word_literal);
    compile(here + 2);
    compile(word_exit);
    compile(0);
}

static int hidden(void (*act)(void))
{
    define(" ", act, 0);
    return word_count - 1;
}

void define_control(void)
{
    word_literal = hidden(literal);
    word_branch = hidden(branch);
    word_branch_zero = hidden(branch_zero);
    word_do = hidden(begin_loop);
    word_loop = hidden(end_loop);
    word_text = hidden(write_text);
    word_exit = hidden(leave);
    define("i", index, 0);
    define(":", colon, 0);
    define("variable", variable, 0);
    define(";", semicolon, 1);
    define("if", if_word, 1);
    define("else", else_word, 1);
    define("then", then_word, 1);
    define("begin", begin_word, 1);
    define("until", until_word, 1);
    define("do", do_word, 1);
    define("loop", loop_word, 1);
    define("recurse", recurse_word, 1);
    define(".\"", text_word, 1);
    define("(", comment_word, 1);
}
