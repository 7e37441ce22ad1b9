/* The world: rooms, the ways between them, and things. */
#ifndef WORLD_H
#define WORLD_H

enum direction { NORTH, EAST, SOUTH, WEST, UP, DOWN, DIRECTIONS };
enum room { NOWHERE, HALL, LIBRARY, CELLAR, GARDEN, WELL, TOWER, CARRIED };
enum thing { LAMP, KEY, BOOK, ROPE, CROWN, THINGS };

struct place {
    const char *name;
    const char *text;
    unsigned char ways[DIRECTIONS]; /* the room in each direction, or NOWHERE */
    unsigned char is_dark;
};

struct object {
    const char *name;
    const char *text;
    unsigned char room; /* where it is */
    unsigned char points; /* for bringing it into the hall */
};

extern struct place places[];
extern struct object objects[];

/* The number of a direction or a thing by its name, or -1. */
int direction_of(const char *name);
int thing_of(const char *name);

const char *direction_name(int direction);

#endif
