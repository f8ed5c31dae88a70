/* A room made of surfaces, by the library's writers. */
#ifndef ROOM_H
#define ROOM_H

#include "block.h"
#include "lent.h"

/* Puts a u16. */
static void put_number(uint8_t *at, uint32_t n)
{
    at[0] = (uint8_t)n;
    at[1] = (uint8_t)(n >> 8);
}

/* A ROOM of w by h with these pixels and the n planes of these masks: RMHD, RMIM and nothing else. N stands at byte 38, SMAP at byte 48. */
static struct lent room_of(struct lent pixels, struct lent masks, uint32_t w, uint32_t h, uint32_t n)
{
    struct lent out = lend(48 + kg_smap_bound(w, h) + n * kg_plane_bound(w, h), 0);
    uint64_t answer = kg_write_smap(pixels.at, pixels.size, out.at + 48, out.size - 48, w, h);
    uint32_t size = 48 + kg_value(answer), one = (uint32_t)kg_masks_size(w, h, 1), k;
    expect(kg_number(answer) == KG_ACCEPTED && memcmp(out.at + 48, "SMAP", 4) == 0, "the writer of pixels");
    for (k = 1; k <= n; k++) {
        answer = kg_write_plane(masks.at + (size_t)(k - 1) * one, one, out.at + size, out.size - size, w, h, k);
        expect(kg_number(answer) == KG_ACCEPTED && memcmp(out.at + size, "ZP0", 3) == 0, "the writer of planes");
        expect(out.at[size + 3] == '0' + k, "the plane's number in its tag");
        size += kg_value(answer);
    }
    put_head(out.at, "ROOM", size);
    put_head(out.at + 8, "RMHD", 14);
    put_number(out.at + 16, w);
    put_number(out.at + 18, h);
    put_head(out.at + 22, "RMIM", size - 22);
    put_head(out.at + 30, "RMIH", 10);
    put_number(out.at + 38, n);
    put_head(out.at + 40, "IM00", size - 40);
    out.size = size;
    memset(out.at + out.size, 0xA5, GUARD);
    return out;
}

#endif
