/* A small machine: sixteen instructions over a stack and a store, run on three programs. */
#include <stdio.h>

enum { STOP, PUSH, LOAD, STORE, ADD, SUB, MUL, LESS, SAME, JUMP, JUMP_NOT, GET, PUT, DROP, COPY, PRINT };

struct machine {
    const unsigned char *code;
    unsigned at;
    int stack[16];
    int *top;
    int store[64];
    unsigned steps;
};

/* Sums of squares below 100, numbers of Fibonacci, and primes by division. */
static const unsigned char squares[] = {
    PUSH, 0, STORE, 1, LOAD, 0, PUSH, 100, LESS, JUMP_NOT, 29, LOAD, 1, LOAD, 0, COPY, MUL, ADD, STORE, 1,
    LOAD, 0, PUSH, 1, ADD, STORE, 0, JUMP, 4, LOAD, 1, PRINT, STOP};
static const unsigned char fibonacci[] = {
    PUSH, 0, STORE, 1, PUSH, 1, STORE, 2, LOAD, 2, LOAD, 1, LOAD, 2, ADD, STORE, 2, STORE, 1, LOAD, 0, PUSH, 1, ADD,
    COPY, STORE, 0, PUSH, 20, SAME, JUMP_NOT, 8, LOAD, 1, PRINT, STOP};
static const unsigned char primes[] = {
    PUSH, 2, STORE, 0, LOAD, 0, PUSH, 60, LESS, JUMP_NOT, 51, LOAD, 0, GET, PUSH, 0, SAME, JUMP_NOT, 42, LOAD, 0, PRINT,
    LOAD, 0, STORE, 63, LOAD, 63, PUSH, 60, LESS, JUMP_NOT, 42, LOAD, 63, PUSH, 1, PUT, LOAD, 63, JUMP, 52, LOAD, 0, PUSH,
    1, ADD, STORE, 0, JUMP, 4, STOP, LOAD, 0, ADD, STORE, 63, JUMP, 26};

static void print(int n)
{
    if (n < 0) {
        putchar('-');
        n = -n;
    }
    if (n >= 10)
        print(n / 10);
    putchar('0' + n % 10);
}

static int step(struct machine *m)
{
    int a, b;
    unsigned char operation = m->code[m->at++];

    m->steps++;
    switch (operation) {
    case STOP: return 0;
    case PUSH: *m->top++ = m->code[m->at++]; break;
    case LOAD: *m->top++ = m->store[m->code[m->at++]]; break;
    case STORE: m->store[m->code[m->at++]] = *--m->top; break;
    case JUMP: m->at = m->code[m->at]; break;
    case JUMP_NOT: m->at = *--m->top ? m->at + 1 : m->code[m->at]; break;
    case GET: m->top[-1] = m->store[m->top[-1]]; break;
    case PUT: b = *--m->top; a = *--m->top; m->store[a] = b; break;
    case DROP: m->top--; break;
    case COPY: *m->top = m->top[-1]; m->top++; break;
    case PRINT: print(*--m->top); putchar(' '); break;
    default:
        b = *--m->top;
        a = m->top[-1];
        switch (operation) {
        case ADD: a += b; break;
        case SUB: a -= b; break;
        case MUL: a = (int)((unsigned)a * (unsigned)b); break;
        case LESS: a = a < b; break;
        case SAME: a = a == b; break;
        }
        m->top[-1] = a;
    }
    return m->top >= m->stack && m->top < m->stack + 16;
}

static struct machine machine;

static void run(const unsigned char *code)
{
    int i;

    machine.code = code;
    machine.at = 0;
    machine.top = machine.stack;
    for (i = 0; i < 64; i++)
        machine.store[i] = 0;
    while (step(&machine))
        ;
    putchar('\n');
}

int main(void)
{
    run(squares);
    run(fibonacci);
    run(primes);
    print((int)machine.steps);
    putchar('\n');
    return (int)(machine.steps & 127);
}
