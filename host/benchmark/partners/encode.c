/* The one-pass encoders that host/bench holds the writers against: document 01's writing rule in plain C. Each pixel and each row is read once where
 * it stands, and its bits are written at once. Nothing is tested: not a size, not whether the target is long enough. */
#include "partners.h"

#include <string.h>

/* A strip under code 1C: where its bytes end. */
static uint8_t *strip(const uint8_t *from, uint8_t *to, uint32_t w, uint32_t h)
{
    uint8_t colour = from[0], step = 1;
    uint32_t buffer = 0, held = 0, x = 1, y;
    *to++ = 0x1C;
    *to++ = colour;
    for (y = 0; y < h; y++, from += w, x = 0) {
        for (; x < 8; x++) {
            uint8_t v = from[x];
            if (v == colour) {
                held += 1;
            } else if (v == (uint8_t)(colour - step)) {
                buffer |= 3u << held;
                held += 3;
            } else if (v == (uint8_t)(colour + step)) {
                buffer |= 7u << held;
                held += 3;
                step = (uint8_t)-step;
            } else {
                buffer |= (1u | (uint32_t)v << 2) << held;
                held += 10;
                step = 1;
            }
            colour = v;
            for (; held >= 8; held -= 8, buffer >>= 8) *to++ = (uint8_t)buffer;
        }
    }
    if (held > 0) *to++ = (uint8_t)buffer;
    return to;
}

/* Tag and size of a block that ends before `end`; its length. */
static size_t finished(uint8_t *out, const char *tag, const uint8_t *end)
{
    size_t size = (size_t)(end - out);
    memcpy(out, tag, 4);
    out[4] = (uint8_t)(size >> 24);
    out[5] = (uint8_t)(size >> 16);
    out[6] = (uint8_t)(size >> 8);
    out[7] = (uint8_t)size;
    return size;
}

size_t encode_smap(const uint8_t *rows, uint8_t *out, uint32_t w, uint32_t h)
{
    uint8_t *entry = out + 8, *to = entry + w / 8 * 4;
    uint32_t s;
    for (s = 0; s < w / 8; s++, entry += 4) {
        uint32_t offset = (uint32_t)(to - out);
        entry[0] = (uint8_t)offset;
        entry[1] = (uint8_t)(offset >> 8);
        entry[2] = (uint8_t)(offset >> 16);
        entry[3] = (uint8_t)(offset >> 24);
        to = strip(rows + 8 * s, to, w, h);
    }
    return finished(out, "SMAP", to);
}

/* A strip of mask rows, `strips` bytes apart, from one that isn't zero everywhere: where its bytes end. */
static uint8_t *mask(const uint8_t *rows, uint8_t *to, uint32_t strips, uint32_t h)
{
    uint32_t y = 0, n;
    while (y < h) {
        uint8_t row = rows[y * strips], *count;
        for (n = 1; y + n < h && n < 127 && rows[(y + n) * strips] == row; n++) {}
        if (n >= 2) {
            *to++ = (uint8_t)(0x80 + n);
            *to++ = row;
            y += n;
            continue;
        }
        count = to++;
        for (n = 0; y < h && n < 127 && !(y + 1 < h && rows[y * strips] == rows[(y + 1) * strips]); n++, y++) *to++ = rows[y * strips];
        *count = (uint8_t)n;
    }
    return to;
}

size_t encode_plane(const uint8_t *rows, uint8_t *out, uint32_t w, uint32_t h, uint32_t k)
{
    const char tags[] = { 'Z', 'P', '0', (char)('0' + k) };
    uint32_t s, y, strips = w / 8;
    uint8_t *to = out + 8 + 2 * strips;
    for (s = 0; s < strips; s++) {
        uint32_t offset = 0;
        for (y = 0; y < h && rows[y * strips + s] == 0; y++) {}
        if (y < h) {
            offset = (uint32_t)(to - out);
            to = mask(rows + s, to, strips, h);
        }
        out[8 + 2 * s] = (uint8_t)offset;
        out[9 + 2 * s] = (uint8_t)(offset >> 8);
    }
    return finished(out, tags, to);
}
