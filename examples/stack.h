/* A stack of numbers. */
#define STACK_SIZE 16

extern int stack_depth;

int push(int value);
int pop(void);
