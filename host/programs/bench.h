/* A room on the bench: its bytes, its session and its surfaces, which every call of the library is lent. What is known of the room is what
 * the library answers. */
#ifndef BENCH_H
#define BENCH_H

#include "calls.h"
#include "kildegrom.h"

/* The largest room and its surfaces: nothing is allocated. One byte more than a room may have, so that a longer file is refused by the library
 * and not cut. The sizes are those of the room that was loaded last. */
struct bench {
    uint8_t room[KG_MAX_ROOM + 1], session[KG_SESSION_SIZE], pixels[KG_MAX_PIXELS], masks[KG_MAX_MASKS];
    uint8_t rows[KG_MAX_ROWS]; /* of the objects, as kg_list gives them */
    size_t room_size, pixels_size, masks_size;
    uint32_t width, height, planes, objects;
    uint8_t clear; /* the room's transparent colour */
};

/* Loads the room's bytes, of which there are room_size: kg_list, then kg_load. The number of the call that is refused. */
uint32_t bench_load(struct bench *bench);

/* An object's row, and its header in it. Objects are counted from 1 and are the room's, here and below. */
const uint8_t *bench_row(const struct bench *bench, uint32_t object);
const uint8_t *bench_header(const struct bench *bench, uint32_t object);

/* Makes one call of a list: its number. */
uint32_t bench_call(struct bench *bench, struct call call);

/* Why a room of the bench is refused with this number. */
const char *bench_reason(const struct bench *bench, uint32_t number);

/* An object's box in pixels: CDHD's sizes, at the newest strip position, else at CDHD's place. It may pass the room's edges. 0 where the
 * object has none: a side is 0. */
struct box {
    uint32_t left, top, width, height;
};
int bench_box(const struct bench *bench, uint32_t object, struct box *box);

/* An object's name as a text: a byte that is no printable ASCII is a `?`, `@` at the end, which fills names up, is left out. */
enum { NAME_SIZE = 64 };
void bench_name(const struct bench *bench, uint32_t object, char name[NAME_SIZE]);

#endif
