/* The colours of the pixels' values. */
#include "palette.h"

#include "files.h"
#include "message.h"

#include <string.h>

enum { BLOCK_HEAD = 8 };

/* The size that a block's head has, its own 8 bytes counted. */
static size_t block_size(const uint8_t *at)
{
    return (size_t)at[4] << 24 | (size_t)at[5] << 16 | (size_t)at[6] << 8 | at[7];
}

/* The payload of the first CLUT among the children of ROOM, or NULL where there is none of 768 bytes. A block that passes the end, or is shorter
 * than its head, ends the search. */
static const uint8_t *clut(const uint8_t *room, size_t size)
{
    size_t at = BLOCK_HEAD, length;
    if (size < BLOCK_HEAD || memcmp(room, "ROOM", 4) != 0) return NULL;
    if (block_size(room) < size) size = block_size(room);
    for (; at + BLOCK_HEAD <= size; at += length) {
        length = block_size(room + at);
        if (length < BLOCK_HEAD || length > size - at) return NULL;
        if (memcmp(room + at, "CLUT", 4) == 0) return length == BLOCK_HEAD + PALETTE_SIZE ? room + at + BLOCK_HEAD : NULL;
    }
    return NULL;
}

/* One byte more is asked for, so that a longer file is told from a palette. */
static void read_palette(struct palette *palette, const char *path)
{
    uint8_t bytes[PALETTE_SIZE + 1];
    if (read_file(path, bytes, sizeof bytes) != PALETTE_SIZE) stop(2, "a palette has 768 bytes: %s", path);
    memcpy(palette->rgb, bytes, PALETTE_SIZE);
}

void take_palette(struct palette *palette, const char *path, const uint8_t *room, size_t room_size)
{
    const uint8_t *own = clut(room, room_size);
    size_t i;
    for (i = 0; i < PALETTE_SIZE; i++) palette->rgb[i] = (uint8_t)(i / 3);
    if (path != NULL) read_palette(palette, path);
    else if (own != NULL) memcpy(palette->rgb, own, PALETTE_SIZE);
}

static uint32_t square_of_difference(uint8_t a, uint8_t b)
{
    int difference = a - b;
    return (uint32_t)(difference * difference);
}

uint8_t nearest_colour(const struct palette *palette, uint8_t red, uint8_t green, uint8_t blue, uint8_t clear)
{
    uint32_t nearest = UINT32_MAX, i;
    uint8_t colour = 0;
    for (i = 0; i < PALETTE_SIZE / 3; i++) {
        const uint8_t *rgb = palette->rgb + 3 * i;
        uint32_t far = square_of_difference(rgb[0], red) + square_of_difference(rgb[1], green) + square_of_difference(rgb[2], blue);
        if (i == clear || far >= nearest) continue;
        nearest = far;
        colour = (uint8_t)i;
    }
    return colour;
}
