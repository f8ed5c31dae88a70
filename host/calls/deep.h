/* A room in which the calls go as deep as they can: every kind of strip, four planes, blocks at depth 6, objects with images, a chain of
 * containers from object 1 to the last one, and a transparent index that the strips hold. */
#ifndef DEEP_H
#define DEEP_H

#include "block.h"
#include "kildegrom.h"

enum { DEEP_WIDTH = 64, DEEP_HEIGHT = 200, IMAGES = 3, STATES = 2, IMAGE_WIDTH = 32, IMAGE_HEIGHT = 104 };

static uint8_t deep[KG_MAX_ROOM];
static uint32_t deep_size, deep_seed = 1, hand, in_hand;

static uint32_t deep_picked(uint32_t below)
{
    deep_seed = deep_seed * 1664525u + 1013904223u;
    return (deep_seed >> 16) % below;
}

static void put_byte(uint32_t byte) { deep[deep_size++] = (uint8_t)byte; }

static void put_u16(uint32_t n)
{
    put_byte(n & 255);
    put_byte(n >> 8);
}

static void put_bits(uint32_t value, uint32_t n)
{
    hand |= value << in_hand;
    for (in_hand += n; in_hand >= 8; in_hand -= 8, hand >>= 8) put_byte(hand & 255);
}

/* A block's head, whose size is put when its payload is known. */
static uint32_t opened(const char *tag)
{
    uint32_t at = deep_size;
    put_head(deep + at, tag, 8);
    deep_size += 8;
    return at;
}

static void closed(uint32_t at, const char *tag) { put_head(deep + at, tag, deep_size - at); }

/* One operation for one pixel: a keep, a new index or a change, in the bits of the first or the second method. */
static void put_operation(int second)
{
    uint32_t kind = deep_picked(4);
    if (kind == 0) put_bits(0, 1);
    else if (kind == 1) put_bits(1 | deep_picked(256) << 2, 10);
    else if (second) put_bits(3 | deep_picked(4) << 2, 5);
    else put_bits(kind == 2 ? 3 : 7, 3);
}

static void put_strip(uint32_t code, uint32_t height)
{
    uint32_t left = 8 * height, run = 100;
    put_byte(code);
    if (code == 1) {
        for (; left > 0; left--) put_byte(deep_picked(256));
        return;
    }
    put_byte(7);
    left--;
    if (code >= 0x40) {
        put_bits(3 | 4 << 2 | run << 5, 13);
        left -= run;
    }
    for (; left > 0; left--) put_operation(code >= 0x40);
    put_bits(0, 16 - in_hand);
}

/* Strips of every kind, the first one by `from`. */
static void put_smap(uint32_t width, uint32_t height, uint32_t from)
{
    static const uint32_t codes[] = { 0x01, 0x12, 0x1C, 0x26, 0x30, 0x44, 0x58, 0x6C, 0x80 };
    uint32_t smap = opened("SMAP"), s, table = deep_size;
    deep_size += 4 * (width / 8);
    for (s = 0; s < width / 8; s++) {
        uint32_t offset = deep_size - smap, end;
        put_strip(codes[(from + s) % (sizeof codes / sizeof codes[0])], height);
        end = deep_size;
        deep_size = table + 4 * s;
        put_u16(offset & 0xFFFF);
        put_u16(offset >> 16);
        deep_size = end;
    }
    closed(smap, "SMAP");
}

static void put_planes(uint32_t width, uint32_t height)
{
    static uint8_t rows[KG_MAX_PIXELS];
    uint32_t k, i, size = (uint32_t)kg_masks_size(width, height, 1);
    for (k = 1; k <= KG_MAX_PLANES; k++) {
        for (i = 0; i < size; i++) rows[i] = (uint8_t)deep_picked(3);
        deep_size += kg_value(kg_write_plane(rows, size, deep + deep_size, sizeof deep - deep_size, width, height, k));
    }
}

static void put_image(const char *tag, uint32_t width, uint32_t height, uint32_t from)
{
    uint32_t image = opened(tag);
    put_smap(width, height, from);
    put_planes(width, height);
    closed(image, tag);
}

static void put_object_image(uint32_t id)
{
    const uint32_t fields[8] = { 0, STATES, 0, 0, 8, 16, IMAGE_WIDTH, IMAGE_HEIGHT };
    uint32_t obim = opened("OBIM"), imhd = opened("IMHD"), k;
    for (k = 0; k < 8; k++) put_u16(k == 0 ? id : fields[k]);
    closed(imhd, "IMHD");
    put_image("IM01", IMAGE_WIDTH, IMAGE_HEIGHT, 4 * id);
    put_image("IM02", IMAGE_WIDTH, IMAGE_HEIGHT, 4 * id + 2);
    closed(obim, "OBIM");
}

/* An object whose box is the room and whose container is the next object. */
static void put_object(uint32_t id, uint32_t parent)
{
    const uint32_t bytes[11] = { 0, 0, DEEP_WIDTH / 8, DEEP_HEIGHT / 8, 0, parent, 0, 0, 0, 0, 0 };
    uint32_t obcd = opened("OBCD"), cdhd = opened("CDHD"), k, obna;
    put_u16(id);
    for (k = 0; k < 11; k++) put_byte(bytes[k]);
    closed(cdhd, "CDHD");
    obna = opened("OBNA");
    put_u16('o');
    closed(obna, "OBNA");
    closed(obcd, "OBCD");
}

/* Blocks in blocks: with the room itself, depth 6. */
static void put_nest(void)
{
    uint32_t at[4], k;
    for (k = 0; k < 4; k++) at[k] = opened("ROOM");
    opened("XXXX");
    for (k = 4; k > 0; k--) closed(at[k - 1], "ROOM");
}

/* The room's first strip is of kind `from`. */
static void make_deep(uint32_t objects, uint32_t from)
{
    uint32_t room, rmhd, trns, rmim, rmih, k;
    deep_size = 0;
    room = opened("ROOM");
    rmhd = opened("RMHD");
    put_u16(DEEP_WIDTH);
    put_u16(DEEP_HEIGHT);
    put_u16(0);
    closed(rmhd, "RMHD");
    trns = opened("TRNS");
    put_byte(7);
    closed(trns, "TRNS");
    rmim = opened("RMIM");
    rmih = opened("RMIH");
    put_u16(KG_MAX_PLANES);
    closed(rmih, "RMIH");
    put_image("IM00", DEEP_WIDTH, DEEP_HEIGHT, from);
    closed(rmim, "RMIM");
    for (k = 1; k <= IMAGES; k++) put_object_image(k);
    for (k = 1; k <= objects; k++) put_object(k, k < objects ? k + 1 : 0);
    put_nest();
    closed(room, "ROOM");
}

#endif
