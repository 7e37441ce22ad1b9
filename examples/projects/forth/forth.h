/* A small Forth: words on a stack of numbers, compiled into cells. */
#ifndef FORTH_H
#define FORTH_H

#define NAME_SIZE 16
#define WORDS 96
#define CELLS 1000

struct word {
    char name[NAME_SIZE];
    void (*act)(void); /* of a word that is built in, else NULL */
    int body;          /* the cell with which another one begins */
    char is_immediate; /* is it done while a word is compiled? */
};

extern struct word words[WORDS];
extern int word_count;
extern int cells[CELLS];
extern int here; /* the first free cell */
extern int is_compiling;

/* Stops the line that is being done, with a reason. */
extern const char *failure;
void fail(const char *why);

void push(int n);
int pop(void);
int depth(void);

/* The next word of the input, up to white space, or up to a byte; 0 at the end. */
int next_word(char *text, int size);
int next_until(char *text, int size, int end);
void skip_line(void);

int find(const char *name);
void define(const char *name, void (*act)(void), int is_immediate);
void compile(int cell);

/* Does the word of that number, and all that it calls. */
void execute(int word);

/* What the words of control flow compile: the number of each, and its operand in the cell behind it. */
extern int word_literal, word_branch, word_branch_zero, word_exit, word_do, word_loop;
int next_cell(void);
void jump(int cell);

void define_values(void);
void define_control(void);

/* The numbers of loops, above the addresses to return to. */
void push_return(int n);
int pop_return(void);
int top_return(void);

#endif
