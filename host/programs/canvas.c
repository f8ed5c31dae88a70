/* A picture of red, green and blue bytes, by rows. */
#include "canvas.h"

#include <string.h>

uint8_t *canvas_at(const struct canvas *canvas, int32_t x, int32_t y)
{
    if (x < 0 || y < 0 || (uint32_t)x >= canvas->width || (uint32_t)y >= canvas->height) return NULL;
    return canvas->rgb + 3 * ((size_t)y * canvas->width + (size_t)x);
}

void canvas_dot(const struct canvas *canvas, int32_t x, int32_t y, struct colour colour)
{
    uint8_t *at = canvas_at(canvas, x, y);
    if (at != NULL) memcpy(at, colour.rgb, 3);
}

void canvas_mix(const struct canvas *canvas, int32_t x, int32_t y, struct colour colour, uint32_t parts)
{
    uint8_t *at = canvas_at(canvas, x, y);
    uint32_t c;
    for (c = 0; at != NULL && c < 3; c++) at[c] = (uint8_t)((parts * colour.rgb[c] + (4 - parts) * at[c]) / 4);
}

/* From `low` on, so many places, of those from 0 to `size`: the first of them and the one behind the last. */
struct span {
    uint32_t first, end;
};

static struct span cut(int32_t low, uint32_t count, uint32_t size)
{
    int64_t first = low, end = first + count;
    struct span span;
    span.first = (uint32_t)(first < 0 ? 0 : first > (int64_t)size ? (int64_t)size : first);
    span.end = (uint32_t)(end < 0 ? 0 : end > (int64_t)size ? (int64_t)size : end);
    return span;
}

void canvas_fill(const struct canvas *canvas, int32_t left, int32_t top, uint32_t width, uint32_t height, struct colour colour)
{
    struct span across = cut(left, width, canvas->width), down = cut(top, height, canvas->height);
    uint32_t x, y;
    for (y = down.first; y < down.end; y++) {
        uint8_t *at = canvas->rgb + 3 * ((size_t)y * canvas->width + across.first);
        for (x = across.first; x < across.end; x++, at += 3) memcpy(at, colour.rgb, 3);
    }
}

void canvas_outline(const struct canvas *canvas, int32_t left, int32_t top, uint32_t width, uint32_t height, struct colour colour)
{
    int32_t right = (int32_t)((int64_t)left + width - 1), bottom = (int32_t)((int64_t)top + height - 1);
    canvas_fill(canvas, left, top, width, 1, colour);
    canvas_fill(canvas, left, bottom, width, 1, colour);
    canvas_fill(canvas, left, top, 1, height, colour);
    canvas_fill(canvas, right, top, 1, height, colour);
}

void canvas_put(const struct canvas *canvas, int32_t left, int32_t top, const struct canvas *picture, uint32_t scale)
{
    struct span across = cut(left, scale * picture->width, canvas->width), down = cut(top, scale * picture->height, canvas->height);
    uint32_t x, y;
    for (y = down.first; y < down.end; y++) {
        const uint8_t *row = picture->rgb + 3 * (size_t)picture->width * ((uint32_t)((int64_t)y - top) / scale);
        uint8_t *at = canvas->rgb + 3 * ((size_t)y * canvas->width + across.first);
        for (x = across.first; x < across.end; x++, at += 3) memcpy(at, row + 3 * (size_t)((uint32_t)((int64_t)x - left) / scale), 3);
    }
}
