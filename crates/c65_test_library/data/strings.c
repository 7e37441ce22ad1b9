/* string.h: strings (C90 7.11). */
#include <string.h>
#include "show.h"

static char text[24];
static const char words[] = "one two, three";

static long place(const char *found)
{
    return found ? found - words : -1;
}

static void copies(void)
{
    show("strcpy", strcpy(text, "abc") == text);
    show("strcat", strcat(text, "def") == text);
    show_text("strcat", text);
    show_text("strcat of none", strcat(text, ""));
    show_text("strncat cut", strncat(text, "ghijk", 2));
    show_text("strncat whole", strncat(text, "ij", 9));
    show_text("strncat of none", strncat(text, "kl", 0));
    memset(text, '*', 10);
    text[10] = 0;
    show_text("strncpy cut", strncpy(text, "abcdef", 3));
    show("strncpy", strncpy(text, "xy", 5) == text);
    show("strncpy fills", text[2] + text[3] + text[4]);
    show_text("strncpy leaves", text + 5);
    strncpy(text, "q", 0);
    show_text("strncpy of none", text);
}

static void orders(void)
{
    show("strcmp equal", strcmp("abc", "abc"));
    show("strcmp shorter", sign(strcmp("ab", "abc")));
    show("strcmp greater", sign(strcmp("abd", "abc")));
    show("strcmp unsigned", sign(strcmp("\200", "\177")));
    show("strncmp within", strncmp("abcx", "abcy", 3));
    show("strncmp beyond", sign(strncmp("abcx", "abcy", 4)));
    show("strncmp ends", strncmp("abc", "abc", 9));
    show("strncmp shorter", sign(strncmp("ab", "abc", 9)));
    show("strncmp behind the end", strncmp("ab\0x", "ab\0y", 4));
    show("strncmp unsigned", sign(strncmp("\377", "a", 1)));
    show("strncmp of none", strncmp("a", "b", 0));
}

static void searches(void)
{
    show("strchr", place(strchr(words, 't')));
    show("strchr zero", place(strchr(words, 0)));
    show("strchr missing", place(strchr(words, 'z')));
    show("strchr by the byte", place(strchr(words, 'w' + 256)));
    show("strrchr", place(strrchr(words, 't')));
    show("strrchr zero", place(strrchr(words, 0)));
    show("strrchr missing", place(strrchr(words, 'z')));
    show("strspn", strspn(words, "eno"));
    show("strspn of none", strspn(words, ""));
    show("strspn whole", strspn("aab", "ba"));
    show("strcspn", strcspn(words, ", "));
    show("strcspn of none", strcspn(words, ""));
    show("strpbrk", place(strpbrk(words, ",w")));
    show("strpbrk missing", place(strpbrk(words, "zq")));
    show("strstr", place(strstr(words, "thr")));
    show("strstr first", place(strstr(words, "one")));
    show("strstr empty", place(strstr(words, "")));
    show("strstr missing", place(strstr(words, "threes")));
    show("strstr in vain", strstr("aaab", "aab") - (char *)0 != 0);
    show("strlen", strlen(words));
    show("strlen empty", strlen(""));
}

static void pieces(void)
{
    char line[20];

    strcpy(line, ",,a,b;;c");
    show_text("strtok first", strtok(line, ","));
    show_text("strtok other set", strtok(NULL, ";"));
    show_text("strtok last", strtok(NULL, ";"));
    show_text("strtok none", strtok(NULL, ";"));
    show_text("strtok none again", strtok(NULL, ";"));
    strcpy(line, ";;;");
    show_text("strtok of stops", strtok(line, ";"));
    strcpy(line, "whole");
    show_text("strtok whole", strtok(line, ""));
    show_text("strtok behind it", strtok(NULL, ""));
}

int main(void)
{
    copies();
    orders();
    searches();
    pieces();
    return 0;
}
