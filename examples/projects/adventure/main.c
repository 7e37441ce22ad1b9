/* A text adventure: commands of one or two words, one a line. */
#include <ctype.h>
#include <stdio.h>
#include <stdlib.h>
#include <string.h>
#include "world.h"

static int here = HALL;
static int moves;

static void say(const char *text)
{
    fputs(text, stdout);
}

static int is_here(int thing)
{
    return objects[thing].room == here || objects[thing].room == CARRIED;
}

static int is_dark(void)
{
    return places[here].is_dark && !is_here(LAMP);
}

static void list_things(int room, const char *before)
{
    int i;

    for (i = 0; i < THINGS; ++i)
        if (objects[i].room == room) {
            say(before);
            puts(objects[i].name);
        }
}

static void look(void)
{
    int i;

    if (is_dark()) {
        puts("It is pitch dark.");
        return;
    }
    say("[");
    say(places[here].name);
    puts("]");
    puts(places[here].text);
    list_things(here, "Here is: ");
    say("Ways:");
    for (i = 0; i < DIRECTIONS; ++i)
        if (places[here].ways[i] != NOWHERE) {
            say(" ");
            say(direction_name(i));
        }
    say("\n");
}

static void go(int direction)
{
    int next = places[here].ways[direction];

    if (next == NOWHERE) {
        puts("There is no way.");
        return;
    }
    here = next;
    look();
}

static void take(int thing)
{
    if (is_dark())
        puts("You feel about in the dark, in vain.");
    else if (objects[thing].room == CARRIED)
        puts("You have it.");
    else if (objects[thing].room != here)
        puts("It is not here.");
    else {
        objects[thing].room = CARRIED;
        puts("Taken.");
    }
}

static void drop(int thing)
{
    if (objects[thing].room != CARRIED) {
        puts("You do not have it.");
        return;
    }
    objects[thing].room = here;
    puts("Dropped.");
}

static void use(int thing)
{
    if (objects[thing].room != CARRIED)
        puts("You do not have it.");
    else if (thing == KEY && here == LIBRARY) {
        places[LIBRARY].ways[UP] = TOWER;
        puts("A door behind the shelves opens. Stairs lead up.");
    } else if (thing == ROPE && here == GARDEN) {
        places[GARDEN].ways[DOWN] = WELL;
        puts("The rope hangs down into the well.");
    } else
        puts("Nothing happens.");
}

static void examine(int thing)
{
    puts(is_here(thing) && !is_dark() ? objects[thing].text : "You do not see it.");
}

static void number(unsigned n)
{
    char digits[6];

    say(utoa(n, digits, 10));
}

static void score(void)
{
    unsigned points = 0;
    int i;

    for (i = 0; i < THINGS; ++i)
        if (objects[i].room == HALL)
            points += objects[i].points;
    say("You have ");
    number(points);
    say(" of 25 points after ");
    number(moves);
    puts(" moves.");
}

struct verb {
    const char *name;
    void (*act)(int thing);
};

static const struct verb verbs[] = {
    { "take", take },
    { "drop", drop },
    { "use", use },
    { "examine", examine }
};

static void act_on(const char *verb, const char *noun)
{
    unsigned i;

    for (i = 0; i < sizeof verbs / sizeof verbs[0]; ++i)
        if (!strcmp(verb, verbs[i].name)) {
            if (!noun || thing_of(noun) < 0)
                puts("What?");
            else
                verbs[i].act(thing_of(noun));
            return;
        }
    puts("I do not know that word.");
}

/* Does a command, and answers whether the game goes on. */
static int obey(const char *verb, const char *noun)
{
    ++moves;
    if (!strcmp(verb, "go") && noun) {
        verb = noun;
        noun = NULL;
    }
    if (!strcmp(verb, "quit"))
        return 0;
    if (!strcmp(verb, "look"))
        look();
    else if (!strcmp(verb, "inventory"))
        list_things(CARRIED, "You carry: ");
    else if (!strcmp(verb, "score"))
        score();
    else if (direction_of(verb) >= 0)
        go(direction_of(verb));
    else
        act_on(verb, noun);
    return 1;
}

int main(void)
{
    char line[40];
    char *p, *verb;

    look();
    while (fgets(line, sizeof line, stdin)) {
        say("> ");
        say(line);
        for (p = line; *p; ++p)
            *p = tolower((unsigned char)*p);
        verb = strtok(line, " \n");
        if (verb && !obey(verb, strtok(NULL, " \n")))
            break;
    }
    score();
    return objects[CROWN].room == HALL ? EXIT_SUCCESS : EXIT_FAILURE;
}
