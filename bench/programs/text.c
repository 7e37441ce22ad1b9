/* Text: words are counted, turned round, searched and compared. */
#include <stdio.h>
#include <string.h>

static char text[] =
    "the quick brown fox jumps over the lazy dog while the other dog sleeps; "
    "then the fox goes home, and the dog wakes up: where is the fox?";
static char line[200];

static int is_letter(char c)
{
    return (c >= 'a' && c <= 'z') || (c >= 'A' && c <= 'Z');
}

static int count_words(const char *s)
{
    int words = 0, inside = 0;

    for (; *s; s++) {
        if (!is_letter(*s))
            inside = 0;
        else if (!inside) {
            inside = 1;
            words++;
        }
    }
    return words;
}

static int find(const char *s, const char *part)
{
    int i, j;

    for (i = 0; s[i] != '\0'; i++) {
        for (j = 0; part[j] != '\0' && s[i + j] == part[j]; j++)
            ;
        if (part[j] == '\0')
            return i;
    }
    return -1;
}

static void turn_words(char *s)
{
    char *from, *to, *next, c;

    for (from = s; *from; from = next) {
        while (*from && !is_letter(*from))
            from++;
        for (next = from; is_letter(*next); next++)
            ;
        for (to = next - 1; from < to; from++, to--) {
            c = *from;
            *from = *to;
            *to = c;
        }
    }
}

static void to_upper(char *s)
{
    int i;

    for (i = 0; s[i]; i++)
        if (s[i] >= 'a' && s[i] <= 'z')
            s[i] -= 'a' - 'A';
}

static void print(int n)
{
    if (n < 0) {
        putchar('-');
        n = -n;
    }
    if (n >= 10)
        print(n / 10);
    putchar('0' + n % 10);
}

int main(void)
{
    int turn, words = 0, places = 0;

    for (turn = 0; turn < 20; turn++) {
        strcpy(line, text);
        words += count_words(line);
        places += find(line, "fox?") + find(line, "wakes") + find(line, "nowhere");
        turn_words(line);
    }
    puts(line);
    to_upper(line);
    puts(line);
    print(words);
    putchar(' ');
    print(places);
    putchar('\n');
    return strcmp(line, text) < 0 ? (int)strlen(line) : 1;
}
