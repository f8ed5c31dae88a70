/* The plain loop that host/bench holds stamps against: the part of the picture that lies in the frame, pixel by pixel; behind a plane each pixel's mask
 * bit is tested. What kg_stamp refuses isn't tested. */
#include "partners.h"

/* The part of a picture's row from column `from` to `to`, without a plane; `frame` is the frame's row, column i of the picture lies at x + i in it. */
static void row_before(uint8_t *frame, const uint8_t *row, int32_t x, int32_t from, int32_t to, uint8_t clear)
{
    int32_t i;
    for (i = from; i < to; i++) {
        if (row[i] != clear) frame[x + i] = row[i];
    }
}

/* The same behind a plane, of which `mask` is the row. */
static void row_behind(uint8_t *frame, const uint8_t *mask, const uint8_t *row, int32_t x, int32_t from, int32_t to, uint8_t clear)
{
    int32_t i;
    for (i = from; i < to; i++) {
        if (row[i] != clear && !(mask[(x + i) >> 3] & (0x80 >> ((x + i) & 7)))) frame[x + i] = row[i];
    }
}

void loop_stamp(uint8_t *frame, const uint8_t *plane, int32_t w, int32_t h, const struct loop_picture *picture)
{
    int32_t x = picture->x, y = picture->y, width = picture->width, row;
    int32_t from = x < 0 ? -x : 0, to = x + width > w ? w - x : width;
    int32_t top = y < 0 ? -y : 0, end = y + picture->height > h ? h - y : picture->height;
    for (row = top; row < end; row++) {
        uint8_t *at = frame + (size_t)(y + row) * (size_t)w;
        const uint8_t *pixels = picture->pixels + (size_t)row * (size_t)width;
        if (plane) row_behind(at, plane + (size_t)(y + row) * (size_t)(w / 8), pixels, x, from, to, picture->clear);
        else row_before(at, pixels, x, from, to, picture->clear);
    }
}
