/* The world: rooms, the ways between them, and things. */
#include <string.h>
#include "world.h"

struct place places[] = {
    { "nowhere", "", { 0 }, 0 },
    { "hall", "A high hall. Dust lies on everything.", { LIBRARY, GARDEN, NOWHERE, NOWHERE, NOWHERE, CELLAR }, 0 },
    { "library", "Shelves reach up to the ceiling.", { NOWHERE, NOWHERE, HALL, NOWHERE, NOWHERE, NOWHERE }, 0 },
    { "cellar", "Barrels stand along the walls.", { NOWHERE, NOWHERE, NOWHERE, NOWHERE, HALL, NOWHERE }, 1 },
    { "garden", "Nettles, and an old well.", { NOWHERE, NOWHERE, NOWHERE, HALL, NOWHERE, NOWHERE }, 0 },
    { "well", "The bottom of the well is dry.", { NOWHERE, NOWHERE, NOWHERE, NOWHERE, GARDEN, NOWHERE }, 1 },
    { "tower", "Wind comes through the window.", { NOWHERE, NOWHERE, NOWHERE, NOWHERE, NOWHERE, LIBRARY }, 0 }
};

struct object objects[THINGS] = {
    { "lamp", "It burns with a steady light.", HALL, 0 },
    { "key", "A heavy iron key.", CELLAR, 0 },
    { "book", "It says: \"Who goes down by a rope comes up with a crown.\"", LIBRARY, 5 },
    { "rope", "Ten yards of good rope.", TOWER, 0 },
    { "crown", "Gold, and too small for you.", WELL, 20 }
};

static const char *const directions[DIRECTIONS] = { "north", "east", "south", "west", "up", "down" };

int direction_of(const char *name)
{
    int i;

    for (i = 0; i < DIRECTIONS; ++i)
        if (!strcmp(name, directions[i]) || (name[1] == 0 && name[0] == directions[i][0]))
            return i;
    return -1;
}

int thing_of(const char *name)
{
    int i;

    for (i = 0; i < THINGS; ++i)
        if (!strcmp(name, objects[i].name))
            return i;
    return -1;
}

const char *direction_name(int direction)
{
    return directions[direction];
}
