/* A machine with a stack, and the assembler of its programs. */
#ifndef MACHINE_H
#define MACHINE_H

enum operation {
    HALT, PUSH, LOAD, STORE, ADD, SUB, MUL, DIV, MOD, LESS, EQUAL, NOT, DUP, DROP, SWAP,
    JUMP, JUMPZ, CALL, RET, PRINT, TEXT, OPERATIONS
};

#define CODE_SIZE 512

extern unsigned char code[CODE_SIZE];
extern const char *const operation_names[OPERATIONS];

/* Does a number of two bytes, low byte first, follow the operation? */
int has_number(int operation);

/* Reads a program from the input; 0, and a line that says why, where it is wrong. */
int assemble(void);

enum ending { ENDED, BAD_CODE, EMPTY_STACK, FULL_STACK, ZERO_DIVISOR, TOO_LONG };

/* Runs it, for so many operations at most. */
enum ending run(unsigned long most);

#endif
