/* The list of a cast: text, a line `pictures FILE`, then a line `actor ID Y LEFT TOP WIDTH HEIGHT CLIP START` for each actor. Blank lines, and
 * `#` with what follows it, are passed over; lines may end with CR LF, and the mark of UTF-8 may stand at the start. A wrong line ends the
 * program with status 2 and its file, line, form and word. How many actors a cast may have is the library's to say. */
#ifndef CAST_H
#define CAST_H

#include "kildegrom.h"

#define SHORTEST_ACTOR "actor 0 0 0 0 0 0 0 0\n"

enum { MOST_LIST = 65536, MOST_PICTURES = 1 << 24, MOST_ACTORS = (MOST_LIST + 1) / (sizeof SHORTEST_ACTOR - 1) };

/* A cast as its list has it, with the line of each actor. One byte more than pictures may have, so that a longer file is told from them. */
struct cast {
    const char *path;
    char pictures_path[4096];
    size_t count, pictures_size;
    struct kg_actor actors[MOST_ACTORS];
    unsigned long lines[MOST_ACTORS];
    uint8_t pictures[MOST_PICTURES + 1];
    int pictured; /* the pictures' line has been read */
};

/* The program's one cast: empty, or what take_cast read. */
extern struct cast cast;
void take_cast(const char *path);

#endif
