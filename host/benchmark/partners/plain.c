/* The plain decoder that host/bench holds loads and tests against: a room's strips and masks in the usual shape, written from document 01 and
 * source 002. One operation at a time, a bit at a time from a small bit buffer that is filled a byte at a time; vertical strips are written down
 * their columns, all others along their rows, straight into the surface. It trusts the data and tests nothing: not a size, not an offset, not where
 * bits end. So it is only for rooms that the library has accepted, with a few spare bytes behind them. No colour is looked up. */
#include "partners.h"

/* Bits from bit 0 up: those of `buffer` first, then the bytes at `at`. */
struct bits {
    const uint8_t *at;
    uint32_t buffer, held;
};

static inline struct bits bits_of(const uint8_t *body)
{
    struct bits b = { body + 3, body[2], 8 };
    return b;
}

/* At least 9 bits are held afterwards, where one was held before. */
static inline void fill(struct bits *b)
{
    if (b->held > 8) return;
    b->buffer |= (uint32_t)*b->at++ << b->held;
    b->held += 8;
}

static inline uint32_t number(struct bits *b, uint32_t width)
{
    uint32_t n = b->buffer & ((1u << width) - 1);
    b->buffer >>= width;
    b->held -= width;
    return n;
}

static inline uint32_t bit(struct bits *b) { return number(b, 1); }

/* An operation of the first method. */
static inline void first(struct bits *b, uint32_t width, uint8_t *colour, uint8_t *step)
{
    fill(b);
    if (!bit(b)) return;
    if (!bit(b)) {
        fill(b);
        *colour = (uint8_t)number(b, width);
        *step = 1;
        return;
    }
    if (bit(b)) *step = (uint8_t)-*step;
    *colour = (uint8_t)(*colour - *step);
}

static void first_horizontal(const uint8_t *body, uint32_t width, uint32_t h, uint8_t *to, uint32_t w)
{
    struct bits b = bits_of(body);
    uint8_t colour = body[1], step = 1;
    uint32_t x;
    for (; h > 0; h--, to += w) {
        for (x = 0; x < 8; x++) {
            to[x] = colour;
            first(&b, width, &colour, &step);
        }
    }
}

static void first_vertical(const uint8_t *body, uint32_t width, uint32_t h, uint8_t *to, uint32_t w)
{
    struct bits b = bits_of(body);
    uint8_t colour = body[1], step = 1, *at;
    uint32_t x, y;
    for (x = 0; x < 8; x++) {
        for (y = 0, at = to + x; y < h; y++, at += w) {
            *at = colour;
            first(&b, width, &colour, &step);
        }
    }
}

/* An operation of the second method: how many pixels it gives. A run's number 0 gives 256. */
static inline uint32_t second(struct bits *b, uint32_t width, uint8_t *colour)
{
    uint32_t d;
    fill(b);
    if (!bit(b)) return 1;
    if (!bit(b)) {
        fill(b);
        *colour = (uint8_t)number(b, width);
        return 1;
    }
    d = number(b, 3);
    if (d != 4) {
        *colour = (uint8_t)(*colour + d - 4);
        return 1;
    }
    fill(b);
    d = number(b, 8);
    return d == 0 ? 256 : d;
}

static void second_horizontal(const uint8_t *body, uint32_t width, uint32_t h, uint8_t *to, uint32_t w)
{
    struct bits b = bits_of(body);
    uint8_t colour = body[1];
    uint32_t x = 0, run = 1;
    for (;;) {
        do {
            to[x++] = colour;
            if (x < 8) continue;
            if (--h == 0) return;
            x = 0;
            to += w;
        } while (--run > 0);
        run = second(&b, width, &colour);
    }
}

static void raw(const uint8_t *from, uint32_t h, uint8_t *to, uint32_t w)
{
    uint32_t x;
    for (; h > 0; h--, to += w) {
        for (x = 0; x < 8; x++) to[x] = *from++;
    }
}

static void strip(const uint8_t *body, uint32_t h, uint8_t *to, uint32_t w)
{
    uint32_t code = body[0];
    if (code == 0x01) raw(body + 1, h, to, w);
    else if (code <= 0x12) first_vertical(body, code - 0x0A, h, to, w);
    else if (code <= 0x1C) first_horizontal(body, code - 0x14, h, to, w);
    else second_horizontal(body, code - 0x3C, h, to, w);
}

/* A strip of mask rows, `strips` bytes apart. */
static void mask(const uint8_t *body, uint32_t h, uint8_t *to, uint32_t strips)
{
    while (h > 0) {
        uint32_t count = *body++;
        if (count >= 0x80) {
            uint8_t row = *body++;
            for (count -= 0x80, h -= count; count > 0; count--, to += strips) *to = row;
        } else {
            for (h -= count; count > 0; count--, to += strips) *to = *body++;
        }
    }
}

void plain_background(const uint8_t *smap, uint8_t *pixels, uint32_t w, uint32_t h)
{
    uint32_t s;
    for (s = 0; s < w / 8; s++) {
        const uint8_t *at = smap + 8 + 4 * s;
        uint32_t offset = at[0] | (uint32_t)at[1] << 8 | (uint32_t)at[2] << 16 | (uint32_t)at[3] << 24;
        strip(smap + offset, h, pixels + 8 * s, w);
    }
}

void plain_plane(const uint8_t *block, uint8_t *masks, uint32_t w, uint32_t h)
{
    uint32_t s, y, strips = w / 8;
    for (s = 0; s < strips; s++) {
        uint32_t offset = block[8 + 2 * s] | (uint32_t)block[9 + 2 * s] << 8;
        if (offset != 0) {
            mask(block + offset, h, masks + s, strips);
        } else {
            for (y = 0; y < h; y++) masks[y * strips + s] = 0;
        }
    }
}
