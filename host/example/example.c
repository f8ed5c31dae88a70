/* The start of a C host: loads a room, draws object 1, moves it and takes that back, paints a cast of three actors, one of them behind plane
 * 1, and writes the frame as a PPM picture in grey.
 *
 *     example ROOM [OUT.ppm]     standard output where no OUT is named
 *
 * Exit status: 0; 1 the library refused a call; 2 a wrong argument or file. */
#include "kildegrom.h"

#include <stdio.h>
#include <stdlib.h>
#include <string.h>

/* The largest room and its surfaces: with these nothing is allocated. One byte more than a room may have, so that a longer file is
 * refused by the library and not cut. */
static uint8_t room[KG_MAX_ROOM + 1], session[KG_SESSION_SIZE], pixels[KG_MAX_PIXELS], masks[KG_MAX_MASKS], frame[KG_MAX_PIXELS];
static size_t room_size, pixels_size, masks_size;
static uint32_t room_w, room_h, planes;
static uint8_t clear; /* the room's transparent colour */

enum { OBJECT = 1, ACTORS = 3, ACTOR_W = 16, ACTOR_H = 40, ACTOR_SIZE = ACTOR_W * ACTOR_H };

/* The actors, in any order: the library puts them in painting order, by the y of their feet. A host keeps the list from frame to frame, and
 * finds an actor in it by its id. */
static struct kg_actor cast[ACTORS] = {
    /* id, y of the feet, left, top, width, height, clip level, start of the picture */
    { 1, 116, 40, 77, ACTOR_W, ACTOR_H, 0, 0 },               /* in front: before every plane, and before the next one */
    { 2, 109, 30, 70, ACTOR_W, ACTOR_H, 0, ACTOR_SIZE },      /* farther back */
    { 3, 109, 232, 70, ACTOR_W, ACTOR_H, 1, 2 * ACTOR_SIZE }, /* behind plane 1 */
};
static uint8_t pictures[ACTORS * ACTOR_SIZE];

/* The lent buffers of a session call, in their order. */
#define LENT room, room_size, session, sizeof session, pixels, pixels_size, masks, masks_size

static void stop(const char *what, const char *which)
{
    fprintf(stderr, "example: %s: %s\n", what, which);
    exit(2);
}

static void accepted(uint32_t number, const char *call)
{
    if (number != KG_ACCEPTED) {
        fprintf(stderr, "example: %s: refused %lu: %s\n", call, (unsigned long)number, kg_refusal_text(number));
        exit(1);
    }
}

static void read_room(const char *path)
{
    FILE *file = fopen(path, "rb");
    if (file == NULL) stop("the file can't be opened", path);
    room_size = fread(room, 1, sizeof room, file);
    if (ferror(file)) stop("the file can't be read", path);
    if (room_size == 0) stop("the file is empty", path);
    fclose(file);
}

static void load(void)
{
    uint8_t record[KG_RECORD_SIZE];
    accepted(kg_record(room, room_size, record, sizeof record), "the room's record");
    room_w = kg_u16(record + KG_RECORD_WIDTH);
    room_h = kg_u16(record + KG_RECORD_HEIGHT);
    planes = kg_u16(record + KG_RECORD_PLANES);
    clear = record[KG_RECORD_TRANSPARENT];
    pixels_size = kg_pixels_size(room_w, room_h);
    masks_size = kg_masks_size(room_w, room_h, planes);
    accepted(kg_load(LENT), "the load");
}

/* An actor's picture: head, body and legs in three greys, and what is around them in the room's transparent colour. His ear muffs are as
 * white as snow, 255; a room whose own transparent colour is 255 has no such white, and he goes without them there. */
static void draw_actor(uint8_t *picture, uint8_t coat)
{
    int x, y;
    for (y = 0; y < ACTOR_H; y++) {
        for (x = 0; x < ACTOR_W; x++) {
            int head = y < 10 && x >= 4 && x < 12, body = y >= 10 && y < 26, leg = y >= 26 && x % 8 >= 1 && x % 8 < 7;
            int muff = y >= 3 && y < 8 && ((x >= 1 && x < 4) || (x >= 12 && x < 15));
            picture[y * ACTOR_W + x] = (uint8_t)(head ? 250 : body ? coat : leg ? 90 : muff ? 255 : clear);
        }
    }
}

static void draw_actors(void)
{
    static const uint8_t coats[ACTORS] = { 20, 130, 170 };
    int i;
    for (i = 0; i < ACTORS; i++) draw_actor(pictures + i * ACTOR_SIZE, coats[i]);
}

/* The library's pixels stay as the steps made them; the cast is painted on a copy, anew for each frame. */
static void paint_cast(void)
{
    memcpy(frame, pixels, pixels_size);
    accepted(kg_cast(cast, ACTORS, frame, pixels_size, masks, masks_size, pictures, sizeof pictures, room_w, room_h, planes, clear), "the cast");
}

static void write_grey(const char *path)
{
    FILE *out = path == NULL ? stdout : fopen(path, "wb");
    size_t i;
    if (out == NULL) stop("the file can't be written", path);
    fprintf(out, "P6\n%lu %lu\n255\n", (unsigned long)room_w, (unsigned long)room_h);
    for (i = 0; i < pixels_size; i++) {
        uint8_t rgb[3];
        memset(rgb, frame[i], sizeof rgb);
        fwrite(rgb, 1, sizeof rgb, out);
    }
    if (fflush(out) != 0 || ferror(out)) stop("the picture can't be written", path == NULL ? "standard output" : path);
}

int main(int argc, char **argv)
{
    if (argc < 2 || argc > 3) stop("usage", "example ROOM [OUT.ppm]");
    read_room(argv[1]);
    load();
    accepted(kg_draw_last(LENT, OBJECT, 1), "object 1 in state 1 where it was");
    accepted(kg_draw_at(LENT, OBJECT, 2, 1, 1), "object 1 in state 2 at strip position (1, 1)");
    accepted(kg_take_back(LENT), "the take-back");
    draw_actors();
    paint_cast();
    write_grey(argc == 3 ? argv[2] : NULL);
    return 0;
}
