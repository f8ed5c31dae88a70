/* A picture of red, green and blue bytes, by rows. What is painted outside of it is left out. */
#ifndef CANVAS_H
#define CANVAS_H

#include "palette.h"

struct canvas {
    uint8_t *rgb; /* 3 * width * height bytes */
    uint32_t width, height;
};

struct colour {
    uint8_t rgb[3];
};

/* The pixel at (x, y), or NULL outside. */
uint8_t *canvas_at(const struct canvas *canvas, int32_t x, int32_t y);
void canvas_dot(const struct canvas *canvas, int32_t x, int32_t y, struct colour colour);

/* Mixes a colour into a pixel: so many parts of it in four. */
void canvas_mix(const struct canvas *canvas, int32_t x, int32_t y, struct colour colour, uint32_t parts);
void canvas_fill(const struct canvas *canvas, int32_t left, int32_t top, uint32_t width, uint32_t height, struct colour colour);

/* The edges of a box of at least one pixel. */
void canvas_outline(const struct canvas *canvas, int32_t left, int32_t top, uint32_t width, uint32_t height, struct colour colour);

/* Another picture, each of its pixels `scale` by `scale`, its upper left corner at (left, top). */
void canvas_put(const struct canvas *canvas, int32_t left, int32_t top, const struct canvas *picture, uint32_t scale);

#endif
