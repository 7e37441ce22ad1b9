/* With __STRICT_ANSI__ the names beyond C90 are the program's own. */
#include <stdio.h>
#include <stdlib.h>

int getline(char s[], int most)
{
    int c, i;

    for (i = 0; i < most - 1 && (c = getchar()) != EOF && c != '\n'; ++i)
        s[i] = c;
    s[i] = '\0';
    return i;
}

static void itoa(int n)
{
    putchar('0' + n);
}

int main(void)
{
    char line[20];

    itoa(getline(line, sizeof line));
    putchar(' ');
    puts(line);
    abort();
    return 0;
}
