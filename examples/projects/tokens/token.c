/* Tokens of a small language in the manner of C. */
#include <ctype.h>
#include <stdio.h>
#include <stdlib.h>
#include <string.h>
#include "token.h"

static const char *const keywords[] = { "else", "for", "if", "int", "return", "while" };

/* Longer ones come before their beginnings. */
static const char *const operators[] = {
    "<<=", ">>=", "<<", ">>", "<=", ">=", "==", "!=", "&&", "||", "++", "--", "+=", "-=", "*=", "/=",
    "+", "-", "*", "/", "%", "<", ">", "=", "!", "&", "|", "^", "~", "?", ":", ";", ",", ".",
    "(", ")", "[", "]", "{", "}"
};

/* Up to three characters are read before they are needed. */
static int ahead[3];
static int ahead_count;
static unsigned line = 1;

static int peek(int distance)
{
    while (ahead_count <= distance)
        ahead[ahead_count++] = getchar();
    return ahead[distance];
}

static int take(void)
{
    int c = peek(0);

    --ahead_count;
    memmove(ahead, ahead + 1, ahead_count * sizeof ahead[0]);
    if (c == '\n')
        ++line;
    return c;
}

static void add(struct token *token, int c)
{
    unsigned length = strlen(token->text);

    if (length < TOKEN_LENGTH) {
        token->text[length] = c;
        token->text[length + 1] = 0;
    }
}

/* Passes over white space and comments; 0 where a comment has no end. */
static int skip(void)
{
    for (;;) {
        while (isspace(peek(0)))
            take();
        if (peek(0) != '/' || peek(1) != '*')
            return 1;
        take();
        take();
        while (peek(0) != '*' || peek(1) != '/')
            if (take() == EOF)
                return 0;
        take();
        take();
    }
}

static int by_text(const void *a, const void *b)
{
    return strcmp(a, *(const char *const *)b);
}

static void take_name(struct token *token)
{
    while (isalnum(peek(0)) || peek(0) == '_')
        add(token, take());
    token->kind = bsearch(token->text, keywords, sizeof keywords / sizeof keywords[0], sizeof keywords[0], by_text)
        ? KEYWORD : NAME;
}

static void take_number(struct token *token)
{
    char *end;

    while (isalnum(peek(0)))
        add(token, take());
    token->value = strtoul(token->text, &end, 0);
    token->kind = *end ? WRONG : NUMBER;
}

static int escaped(int c)
{
    static const char letters[] = "abfnrtv";
    static const char values[] = "\a\b\f\n\r\t\v";
    const char *found = c > 0 ? strchr(letters, c) : NULL;

    return found ? values[found - letters] : c;
}

static void take_string(struct token *token)
{
    token->kind = STRING;
    take();
    while (peek(0) != '"') {
        if (peek(0) == EOF || peek(0) == '\n') {
            token->kind = WRONG;
            return;
        }
        if (peek(0) == '\\') {
            take();
            add(token, escaped(take()));
        } else
            add(token, take());
    }
    take();
}

static int stands(const char *text)
{
    int i;

    for (i = 0; text[i]; ++i)
        if (peek(i) != text[i])
            return 0;
    return 1;
}

static void take_operator(struct token *token)
{
    unsigned i;

    for (i = 0; i < sizeof operators / sizeof operators[0]; ++i)
        if (stands(operators[i])) {
            token->kind = OPERATOR;
            while (strlen(token->text) < strlen(operators[i]))
                add(token, take());
            return;
        }
    token->kind = WRONG;
    add(token, take());
}

void next_token(struct token *token)
{
    int is_whole = skip();

    token->line = line;
    token->text[0] = 0;
    token->value = 0;
    if (!is_whole) {
        token->kind = WRONG;
        strcpy(token->text, "comment");
    } else if (peek(0) == EOF)
        token->kind = END;
    else if (isalpha(peek(0)) || peek(0) == '_')
        take_name(token);
    else if (isdigit(peek(0)))
        take_number(token);
    else if (peek(0) == '"')
        take_string(token);
    else
        take_operator(token);
}
