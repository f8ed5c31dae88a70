/* What host/bench holds the library's calls against, in plain C. partners.rs declares the same for the benchmark. */
#ifndef PARTNERS_H
#define PARTNERS_H

#include <stddef.h>
#include <stdint.h>

/* plain.c: a background by its SMAP block into w by h pixels, and a plane by its ZP block into (w / 8) * h mask bytes. */
void plain_background(const uint8_t *smap, uint8_t *pixels, uint32_t w, uint32_t h);
void plain_plane(const uint8_t *block, uint8_t *masks, uint32_t w, uint32_t h);

/* encode.c: the blocks of kg_write_smap and kg_write_plane; their lengths. */
size_t encode_smap(const uint8_t *rows, uint8_t *out, uint32_t w, uint32_t h);
size_t encode_plane(const uint8_t *rows, uint8_t *out, uint32_t w, uint32_t h, uint32_t k);

/* loop.c: the stamp of kg_stamp on a frame of w by h. `plane` is the mask plane that hides, NULL for none. */
struct loop_picture {
    const uint8_t *pixels;
    int32_t width, height, x, y;
    uint8_t clear;
};
void loop_stamp(uint8_t *frame, const uint8_t *plane, int32_t w, int32_t h, const struct loop_picture *picture);

#endif
