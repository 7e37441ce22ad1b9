/* The assembler: lines of an optional label and colon, and an operation with its number, name or text. */
#include <ctype.h>
#include <stdio.h>
#include <stdlib.h>
#include <string.h>
#include "machine.h"

#define LABELS 32
#define NAME_SIZE 12

struct label {
    char name[NAME_SIZE];
    unsigned at;
    unsigned char is_known;
};

struct use {
    unsigned char label;
    unsigned at; /* where its address is to stand */
};

unsigned char code[CODE_SIZE];
static struct label labels[LABELS];
static struct use uses[2 * LABELS];
static unsigned label_count, use_count, size, line_number;

const char *const operation_names[OPERATIONS] = {
    "halt", "push", "load", "store", "add", "sub", "mul", "div", "mod", "less", "equal", "not", "dup", "drop", "swap",
    "jump", "jumpz", "call", "ret", "print", "text"
};

int has_number(int operation)
{
    return operation == PUSH || operation == LOAD || operation == STORE
        || operation == JUMP || operation == JUMPZ || operation == CALL;
}

static int wrong(const char *why)
{
    char digits[6];

    fputs("line ", stdout);
    fputs(utoa(line_number, digits, 10), stdout);
    fputs(": ", stdout);
    puts(why);
    return 0;
}

static int put(int byte)
{
    if (size == CODE_SIZE)
        return wrong("too long");
    code[size++] = byte;
    return 1;
}

static int put_number(unsigned n)
{
    return put(n & 255) && put(n >> 8);
}

/* The label of that name, a new one where there is none; NULL where there is no room. */
static struct label *label_of(const char *name)
{
    unsigned i;

    for (i = 0; i < label_count; ++i)
        if (!strncmp(labels[i].name, name, NAME_SIZE - 1))
            return &labels[i];
    if (label_count == LABELS)
        return NULL;
    strncpy(labels[label_count].name, name, NAME_SIZE - 1);
    return &labels[label_count++];
}

static int define(const char *name)
{
    struct label *label = label_of(name);

    if (!label)
        return wrong("too many labels");
    if (label->is_known)
        return wrong("a label stands twice");
    label->at = size;
    label->is_known = 1;
    return 1;
}

static int operand(const char *word)
{
    struct label *label;
    char *end;
    long n;

    if (!word)
        return wrong("a number is wanted");
    if (isdigit((unsigned char)*word) || *word == '-') {
        n = strtol(word, &end, 0);
        return *end ? wrong("a bad number") : put_number((unsigned)n);
    }
    label = label_of(word);
    if (!label || use_count == 2 * LABELS)
        return wrong("too many labels");
    uses[use_count].label = (unsigned char)(label - labels);
    uses[use_count++].at = size;
    return put_number(0);
}

static int text(const char *rest)
{
    if (!rest)
        return wrong("a text is wanted");
    for (; *rest; ++rest)
        if (!put(*rest == '_' ? ' ' : *rest))
            return 0;
    return put(0);
}

static int operation(const char *name)
{
    int i;

    for (i = 0; i < OPERATIONS; ++i)
        if (!strcmp(name, operation_names[i])) {
            if (!put(i))
                return 0;
            if (i == TEXT)
                return text(strtok(NULL, " \t\n"));
            return has_number(i) ? operand(strtok(NULL, " \t\n")) : 1;
        }
    return wrong("no such operation");
}

static int assemble_line(char *line)
{
    char *word;

    if ((word = strchr(line, ';')) != NULL)
        *word = 0;
    word = strtok(line, " \t\n");
    if (word && word[strlen(word) - 1] == ':') {
        word[strlen(word) - 1] = 0;
        if (!define(word))
            return 0;
        word = strtok(NULL, " \t\n");
    }
    return word ? operation(word) : 1;
}

static int resolve(void)
{
    unsigned i;
    const struct label *label;

    for (i = 0; i < use_count; ++i) {
        label = &labels[uses[i].label];
        if (!label->is_known)
            return wrong("a label is missing");
        code[uses[i].at] = label->at & 255;
        code[uses[i].at + 1] = label->at >> 8;
    }
    return 1;
}

int assemble(void)
{
    char line[64];

    while (fgets(line, sizeof line, stdin)) {
        ++line_number;
        if (!strcmp(line, "run\n"))
            break;
        if (!assemble_line(line))
            return 0;
    }
    return resolve();
}
