/* Tokens of a small language in the manner of C. */
#ifndef TOKEN_H
#define TOKEN_H

enum kind { END, NAME, KEYWORD, NUMBER, STRING, OPERATOR, WRONG };

#define TOKEN_LENGTH 31

struct token {
    enum kind kind;
    unsigned line;
    char text[TOKEN_LENGTH + 1]; /* cut where it is longer */
    unsigned long value;         /* of a number */
};

/* The next token of the input. */
void next_token(struct token *token);

#endif
