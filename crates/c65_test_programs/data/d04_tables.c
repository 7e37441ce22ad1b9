#include "show.h"

#define COUNT(a) (sizeof(a) / sizeof((a)[0]))
enum kind { NUMBER, PLUS, MINUS, TIMES, OPEN, CLOSE, END };
struct token { enum kind kind; int value; };
static const struct { char c; enum kind kind; } signs[] = { { '+', PLUS }, { '-', MINUS }, { '*', TIMES }, { '(', OPEN }, { ')', CLOSE } };
static const char *at;
static struct token now;
static void next(void)
{
    unsigned i;
    while (*at == ' ') at++;
    if (*at >= '0' && *at <= '9') { now.kind = NUMBER; now.value = 0; do now.value = now.value * 10 + (*at++ - '0'); while (*at >= '0' && *at <= '9'); return; }
    for (i = 0; i < COUNT(signs); i++) if (signs[i].c == *at) { now.kind = signs[i].kind; at++; return; }
    now.kind = END;
}
static int sum(void);
static int factor(void)
{
    int v;
    switch (now.kind) {
    case NUMBER: v = now.value; next(); return v;
    case MINUS: next(); return -factor();
    case OPEN: next(); v = sum(); if (now.kind == CLOSE) next(); else line(-999); return v;
    default: return -1000;
    }
}
static int product(void) { int v = factor(); while (now.kind == TIMES) { next(); v *= factor(); } return v; }
static int sum(void) { int v = product(); for (;;) switch (now.kind) { case PLUS: next(); v += product(); break; case MINUS: next(); v -= product(); break; default: return v; } }
static int eval(const char *s) { at = s; next(); return sum(); }
int main(void) { line(eval("1 + 2 * 3")); line(eval("(1+2)*3-4")); line(eval("-(2 - 5) * -7")); line(eval("12*(3+(4-1)*2)")); line(eval("(1")); return 0; }
