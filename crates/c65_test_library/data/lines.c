/* stdio.h: fgets, fgetc, getc and getline. */
#include <stdlib.h>
#include "show.h"

int main(void)
{
    char text[6];
    char *line = NULL;
    size_t size = 99;
    int length;

    text[0] = '!';
    text[1] = 0;
    show_text("fgets of no room", fgets(text, 0, stdin));
    show_text("fgets of another stream", fgets(text, 6, stdout));
    show_text("fgets leaves", text);
    show_text("fgets whole", fgets(text, 6, stdin));
    show_text("fgets cut", fgets(text, 6, stdin));
    show_text("fgets its rest", fgets(text, 6, stdin));
    show_text("fgets empty line", fgets(text, 6, stdin));
    show_text("fgets of one", fgets(text, 1, stdin));
    show("fgetc", fgetc(stdin));
    show("getc", getc(stdin));
    show("getc of another stream", getc(stderr));
    length = getline(&line, &size, stdin);
    show("getline", length);
    show_text("getline", line);
    show("getline grows", size > (size_t)length);
    show("getline empty line", getline(&line, &size, stdin));
    show("getline cut by the end", getline(&line, &size, stdin));
    show_text("getline", line);
    show("getline at the end", getline(&line, &size, stdin));
    free(line);
    show_text("fgets at the end", fgets(text, 6, stdin));
    show_text("fgets leaves", text);
    show("fgetc at the end", fgetc(stdin));
    return 0;
}
