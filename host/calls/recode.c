/* Puts a room's background, written again by the library's writers, in place of the blocks that the room has: whatever codes these had,
 * kg_compare finds no difference, in either order. Then a pixel or a mask bit is changed before the writing: exactly that strip differs. */
#include "room.h"

static uint32_t width, height, planes;
static struct lent pixels, masks; /* 4 planes, those zero that the room doesn't declare */

static uint32_t size_of(const uint8_t *block)
{
    return (uint32_t)block[4] << 24 | (uint32_t)block[5] << 16 | (uint32_t)block[6] << 8 | block[7];
}

static int is(const uint8_t *block, const char *tag) { return memcmp(block, tag, strlen(tag)) == 0; }

static void append(struct lent *out, const uint8_t *bytes, size_t size)
{
    memcpy(out->at + out->size, bytes, size);
    out->size += size;
}

/* The block SMAP and the first n planes. */
static void append_background(struct lent *out, uint32_t n)
{
    struct lent blocks = room_of(pixels, masks, width, height, n);
    append(out, blocks.at + 48, blocks.size - 48);
    give_back(blocks);
}

/* A block of the room. The blocks on the way to the background are gone into, and those of the background are replaced; N becomes n. */
static void append_block(struct lent *out, const uint8_t *block, uint32_t depth, uint32_t n)
{
    static const char *const way[] = { "ROOM", "RMIM", "IM00" };
    const size_t start = out->size;
    uint32_t at;
    if (depth == 3 && is(block, "SMAP")) append_background(out, n);
    if (depth == 3 && (is(block, "SMAP") || is(block, "ZP0"))) return;
    if (depth == 3 || !is(block, way[depth])) {
        append(out, block, size_of(block));
        if (depth == 2 && is(block, "RMIH")) put_number(out->at + start + 8, n);
        return;
    }
    append(out, block, 8);
    for (at = 8; at < size_of(block); at += size_of(block + at)) append_block(out, block + at, depth + 1, n);
    put_head(out->at + start, way[depth], (uint32_t)(out->size - start));
}

static struct lent recoded(struct lent room, uint32_t n)
{
    struct lent out = lend(room.size + kg_smap_bound(width, height) + n * kg_plane_bound(width, height), 0);
    out.size = 0;
    append_block(&out, room.at, 0, n);
    memset(out.at + out.size, 0xA5, GUARD);
    return out;
}

/* The room against its copy of n planes, which is alike, or differs in one strip; in both orders. */
static void compare_copy(struct lent room, uint32_t n, int alike, uint32_t strip, uint32_t pixel, uint32_t plane)
{
    const uint8_t place[KG_DIFFERENCE_SIZE] = { (uint8_t)strip, 0, (uint8_t)pixel, 0, (uint8_t)plane, 0, 0, 0 };
    struct lent copy = recoded(room, n), list = lend(KG_MAX_DIFFERENCES, 0x77);
    int order;
    for (order = 0; order < 2; order++) {
        const struct lent a = order == 0 ? room : copy, b = order == 0 ? copy : room;
        uint64_t answer = kg_compare(a.at, a.size, b.at, b.size, list.at, list.size);
        size_t filled = alike ? 0 : sizeof place;
        expect(answer == (alike ? 0 : (uint64_t)1 << 32), alike ? "a copy under other codes is alike" : "exactly one strip differs");
        expect(memcmp(list.at, place, filled) == 0 && all(list.at + filled, list.size - filled, 0x77), "the strip that was changed");
        memset(list.at, 0x77, list.size);
    }
    give_back(copy);
    give_back(list);
}

/* One pixel, then one bit of each plane of a strip, and of the plane that the room doesn't declare. */
static void change_strip(struct lent room, uint32_t strip, uint32_t row)
{
    const uint32_t strips = width / 8, declared = planes < KG_MAX_PLANES ? planes + 1 : planes;
    uint8_t *at = pixels.at + (size_t)row * width + 8 * strip + row % 8;
    uint32_t k;
    *at ^= 0x55;
    compare_copy(room, planes, 0, strip, 1, 0);
    *at ^= 0x55;
    for (k = 1; k <= declared; k++) {
        at = masks.at + ((size_t)(k - 1) * height + row) * strips + strip;
        *at ^= (uint8_t)(0x80 >> row % 8);
        compare_copy(room, declared, 0, strip, 0, 1u << (k - 1));
        *at ^= (uint8_t)(0x80 >> row % 8);
    }
}

static void load(struct lent room)
{
    uint8_t record[KG_RECORD_SIZE], session[KG_SESSION_SIZE];
    uint32_t number;
    expect(kg_record(room.at, room.size, record, sizeof record) == KG_ACCEPTED, "the room's record");
    width = kg_u16(record + KG_RECORD_WIDTH);
    height = kg_u16(record + KG_RECORD_HEIGHT);
    planes = kg_u16(record + KG_RECORD_PLANES);
    pixels = lend(kg_pixels_size(width, height), 0);
    masks = lend(kg_masks_size(width, height, KG_MAX_PLANES), 0);
    number = kg_load(room.at, room.size, session, sizeof session, pixels.at, pixels.size, masks.at, masks.size);
    expect(number == KG_ACCEPTED, "the load");
}

int main(int argc, char **argv)
{
    struct lent room = given_room("recode", argc, argv);
    uint32_t strip;
    load(room);
    compare_copy(room, planes, 1, 0, 0, 0);
    if (planes < KG_MAX_PLANES) compare_copy(room, planes + 1, 1, 0, 0, 0);
    for (strip = 0; strip < width / 8; strip++) change_strip(room, strip, (strip * 7 + height - 1) % height);
    give_back(pixels);
    give_back(masks);
    return passed(room);
}
