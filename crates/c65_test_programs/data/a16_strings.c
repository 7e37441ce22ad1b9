#include "show.h"

#include <string.h>
#include <stdlib.h>
#include <stddef.h>
static int length(const char *s) { const char *p = s; while (*p) p++; return p - s; }
char buffer[20];
int main(void)
{
    line(length("hello")); line(strlen("four")); puts("a line");
    strcpy(buffer, "copied"); puts(buffer); line(strcmp("abc", "abd") < 0); line(strcmp("b", "a") > 0); line(strcmp("same", "same"));
    memset(buffer, 'z', 3); puts(buffer); memcpy(buffer + 1, "123", 3); puts(buffer);
    puts("con" "cat" "enated"); line(sizeof "abc"); line("abc"[1]); puts("tab\tquote\"end");
    line(NULL == 0);
    exit(0);
    return 1;
}
