#include "show.h"

#include <string.h>
static char pool[100]; static int used;
static char *keep(const char *s) { char *p = pool + used; strcpy(p, s); used += strlen(s) + 1; return p; }
static void reverse(char *s) { char *e = s + strlen(s); while (s < e) { char c = *s; *s++ = *--e; *e = c; } }
static int has(const char *s, const char *w) { const char *p, *q; for (; *s; s++) { for (p = s, q = w; *q && *p == *q; p++, q++) ; if (!*q) return 1; } return 0; }
static char *words[] = { "pear", "fig", "apple", "date", 0 };
int main(void)
{
    int i, j; char *a, *b, buf[10];
    for (i = 0; words[i]; i++) for (j = i + 1; words[j]; j++) if (strcmp(words[i], words[j]) > 0) { char *t = words[i]; words[i] = words[j]; words[j] = t; }
    for (i = 0; words[i]; i++) puts(words[i]);
    a = keep("hello"); b = keep("world"); reverse(a); puts(a); puts(b); line(b - a); line(has("concatenate", "cat")); line(has("abc", "d"));
    memset(buf, '-', 9); buf[9] = 0; memcpy(buf + 2, "xyz", 3); puts(buf); line(strlen(buf)); line("\x41\102\n"[1]); line(sizeof "a\0b"); line(strlen("a\0b")); line(*"q"); line(memcpy(buf, "12", 2) == buf);
    puts("" "joined " "text" ""); line(strcmp("\377", "a") > 0); line('\'' + '"');
    return 0;
}
