/* The colours of the pixels' values: 768 bytes, red, green and blue of the colours 0 to 255. */
#ifndef PALETTE_H
#define PALETTE_H

#include <stddef.h>
#include <stdint.h>

enum { PALETTE_SIZE = 768 };

struct palette {
    uint8_t rgb[PALETTE_SIZE];
};

/* The file's palette where one is named; else that of the room's first CLUT block, a child of ROOM, where its payload has 768 bytes; else
 * greys. A file that has not 768 bytes ends the program with status 2. A room's palette is a host's reading: the library knows none. The
 * room's bytes may be anything. */
void take_palette(struct palette *palette, const char *path, const uint8_t *room, size_t room_size);

/* The colour, other than `clear`, that is nearest to this one. */
uint8_t nearest_colour(const struct palette *palette, uint8_t red, uint8_t green, uint8_t blue, uint8_t clear);

#endif
