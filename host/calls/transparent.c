/* The room's transparent index: which TRNS block gives it and what an empty one does, what it decides when an object is drawn, and the same
 * choice in a stamp, by the caller's byte. Guard bytes stand around each lent buffer. */
#include "block.h"
#include "lent.h"

enum { WIDTH = 24, HEIGHT = 2, STRIPS = 3, PLANES = 2, WITHOUT = 255 };
enum { AT_RMHD = 8, AT_RMIM = 22, AT_IM00 = 40, AT_OBIM = 120, AT_IM01 = 152, AT_OBCD = 276, AT_END = 305 };

/* A room without TRNS. Its strips are of the colours 5, 7 and 255, the last two under a transparent code; planes 1 and 2 have rows of 0F and
 * 3C. Object 1 covers it all: a row of 7 over one of 255; 255 over 9; 7 over 7. State 1 has these under the transparent code 30, state 2
 * under the opaque 1C, both with rows of C0 in plane 1 and without a plane 2. */
static const uint8_t bare[] = {
    'R', 'O', 'O', 'M', 0, 0, 1, 0x31,
    'R', 'M', 'H', 'D', 0, 0, 0, 14, WIDTH, 0, HEIGHT, 0, 1, 0,
    'R', 'M', 'I', 'M', 0, 0, 0, 98, 'R', 'M', 'I', 'H', 0, 0, 0, 10, PLANES, 0,
    'I', 'M', '0', '0', 0, 0, 0, 80,
    'S', 'M', 'A', 'P', 0, 0, 0, 32, 20, 0, 0, 0, 24, 0, 0, 0, 28, 0, 0, 0, 0x1C, 5, 0, 0, 0x30, 7, 0, 0, 0x30, 255, 0, 0,
    'Z', 'P', '0', '1', 0, 0, 0, 20, 14, 0, 16, 0, 18, 0, 0x82, 0x0F, 0x82, 0x0F, 0x82, 0x0F,
    'Z', 'P', '0', '2', 0, 0, 0, 20, 14, 0, 16, 0, 18, 0, 0x82, 0x3C, 0x82, 0x3C, 0x82, 0x3C,
    'O', 'B', 'I', 'M', 0, 0, 0, 156, 'I', 'M', 'H', 'D', 0, 0, 0, 24, 1, 0, 2, 0, 0, 0, 0, 0, 0, 0, 0, 0, WIDTH, 0, HEIGHT, 0,
    'I', 'M', '0', '1', 0, 0, 0, 62, 'S', 'M', 'A', 'P', 0, 0, 0, 34, 20, 0, 0, 0, 25, 0, 0, 0, 30, 0, 0, 0,
    0x30, 7, 0x80, 0xFE, 1, 0x30, 255, 0x80, 0x12, 0, 0x30, 7, 0, 0,
    'Z', 'P', '0', '1', 0, 0, 0, 20, 14, 0, 16, 0, 18, 0, 0x82, 0xC0, 0x82, 0xC0, 0x82, 0xC0,
    'I', 'M', '0', '2', 0, 0, 0, 62, 'S', 'M', 'A', 'P', 0, 0, 0, 34, 20, 0, 0, 0, 25, 0, 0, 0, 30, 0, 0, 0,
    0x1C, 7, 0x80, 0xFE, 1, 0x1C, 255, 0x80, 0x12, 0, 0x1C, 7, 0, 0,
    'Z', 'P', '0', '1', 0, 0, 0, 20, 14, 0, 16, 0, 18, 0, 0x82, 0xC0, 0x82, 0xC0, 0x82, 0xC0,
    'O', 'B', 'C', 'D', 0, 0, 0, 29, 'C', 'D', 'H', 'D', 0, 0, 0, 21, 1, 0, 0, 0, 3, 1, 0, 0, 0, 0, 0, 0, 0,
};

/* Puts a TRNS block with this payload into the room, before the byte `at`; the room's bytes are lent anew. */
static void put_trns(struct lent *room, uint32_t at, const uint8_t *payload, uint32_t size)
{
    struct lent out = lend(room->size + 8 + size, 0);
    memcpy(out.at, room->at, at);
    put_head(out.at + at, "TRNS", 8 + size);
    memcpy(out.at + at + 8, payload, size);
    memcpy(out.at + at + 8 + size, room->at + at, room->size - at);
    put_head(out.at, "ROOM", (uint32_t)out.size);
    give_back(*room);
    *room = out;
}

static struct lent room_of(const uint8_t *bytes, size_t size)
{
    struct lent out = lend(size, 0);
    memcpy(out.at, bytes, size);
    return out;
}

/* The room above with a TRNS of this index between RMHD and RMIM, as rooms have it. */
static struct lent room_with(uint8_t index)
{
    struct lent out = room_of(bare, sizeof bare);
    put_trns(&out, AT_RMIM, &index, 1);
    return out;
}

/* The record, of kg_record and of kg_list, is that of a room with this index; the room is given back. */
static void records(struct lent room, uint8_t index, const char *what)
{
    const uint8_t wanted[KG_RECORD_SIZE] = { WIDTH, 0, HEIGHT, 0, PLANES, 0, 1, 0, index, 0, 0, 0, 0, 0, 0, 0 };
    struct lent record = lend(KG_RECORD_SIZE + 3, 0x77), row = lend(KG_ROW_SIZE, 0x78);
    expect(kg_record(room.at, room.size, record.at, record.size) == KG_ACCEPTED, what);
    expect(memcmp(record.at, wanted, sizeof wanted) == 0 && all(record.at + sizeof wanted, 3, 0x77), what);
    expect(record.at[KG_RECORD_TRANSPARENT] == index, what);
    memset(record.at, 0x77, record.size);
    expect(kg_list(room.at, room.size, record.at, record.size, row.at, row.size) == KG_ACCEPTED, what);
    expect(memcmp(record.at, wanted, sizeof wanted) == 0 && all(record.at + sizeof wanted, 3, 0x77), what);
    expect(kg_u16(row.at + KG_ROW_STATES) == 3 && row.at[KG_HEADER_WIDTH] == 3, what);
    give_back(record);
    give_back(row);
    give_back(room);
}

/* A TRNS of this length in a container, whose size is its eighth byte; IM00 and IM01 stand in others. It is passed over. */
static void passed_over(uint32_t container, uint32_t around, uint32_t size)
{
    static const uint8_t payload[2] = { 7, 0 };
    struct lent room = room_of(bare, sizeof bare);
    put_trns(&room, container + 8, payload, size);
    room.at[container + 7] = (uint8_t)(room.at[container + 7] + 8 + size);
    if (around != 0) room.at[around + 7] = (uint8_t)(room.at[around + 7] + 8 + size);
    records(room, WITHOUT, "a TRNS inside another container");
}

/* The first TRNS directly in ROOM counts, wherever it stands, and of it the first byte. */
static void which_block(void)
{
    static const uint8_t seven[3] = { 7, 9, 255 }, nine[1] = { 9 };
    static const uint32_t places[] = { AT_RMHD, AT_RMIM, AT_OBIM, AT_OBCD, AT_END };
    struct lent room;
    uint32_t i, size;
    records(room_of(bare, sizeof bare), WITHOUT, "no TRNS");
    for (i = 0; i < 256; i++) records(room_with((uint8_t)i), (uint8_t)i, "every index");
    for (i = 0; i < sizeof places / sizeof places[0]; i++) {
        for (size = 1; size <= 3; size++) {
            room = room_of(bare, sizeof bare);
            put_trns(&room, places[i], seven, size);
            records(room, 7, "a TRNS anywhere among the room's blocks, of any length");
        }
        for (size = 0; size <= 1; size++) {
            room = room_of(bare, sizeof bare);
            put_trns(&room, AT_END, nine, size);
            put_trns(&room, places[i], seven, 2);
            records(room, 7, "a second TRNS, which may be empty");
        }
    }
    for (size = 0; size <= 2; size++) {
        passed_over(AT_RMIM, 0, size);
        passed_over(AT_IM00, AT_RMIM, size);
        passed_over(AT_OBIM, 0, size);
        passed_over(AT_IM01, AT_OBIM, size);
        passed_over(AT_OBCD, 0, size);
    }
}

/* The lent buffers of a session, in the order of every call. */
#define BUFFERS room.at, room.size, session.at, session.size, pixels.at, pixels.size, masks.at, masks.size

/* Every call that takes a room gives this number, and changes nothing. */
static void refused_by_all(struct lent room, uint32_t number, const char *what)
{
    struct lent session = lend(KG_SESSION_SIZE, 0), pixels = lend(WIDTH * HEIGHT, 1), masks = lend(STRIPS * HEIGHT * PLANES, 2);
    struct lent record = lend(KG_RECORD_SIZE, 3), flags = lend(1, 0), list = lend(KG_MAX_DIFFERENCES, 4), right = room_of(bare, sizeof bare);
    expect(kg_record(room.at, room.size, record.at, record.size) == number && kg_load(BUFFERS) == number, what);
    expect(kg_draw_last(BUFFERS, 1, 1) == number && kg_draw_at(BUFFERS, 1, 1, 0, 0) == number, what);
    expect(kg_hide(BUFFERS, 1) == number && kg_take_back(BUFFERS) == number, what);
    expect(kg_object_at(room.at, room.size, session.at, session.size, flags.at, flags.size, 0, 0) == number, what);
    expect(kg_list(room.at, room.size, record.at, record.size, list.at, list.size) == number, what);
    expect(kg_header(room.at, room.size, record.at, record.size, 1) == number, what);
    expect(kg_name(room.at, room.size, 1) == 0 && kg_name_number(room.at, room.size, 1) == number, what);
    expect(kg_compare(room.at, room.size, right.at, right.size, list.at, list.size) == number, what);
    expect(kg_compare(right.at, right.size, room.at, room.size, list.at, list.size) == number, what);
    expect(all(session.at, session.size, 0) && all(pixels.at, pixels.size, 1) && all(masks.at, masks.size, 2), "a refused call changed a surface");
    expect(all(record.at, record.size, 3) && all(list.at, list.size, 4), "a refused call changed a record or a list");
    give_back(session);
    give_back(pixels);
    give_back(masks);
    give_back(record);
    give_back(flags);
    give_back(list);
    give_back(right);
}

/* An empty TRNS is a 2: behind 1, before 3 and 4. */
static void empty_block(void)
{
    static const uint8_t seven[1] = { 7 };
    struct lent room = room_of(bare, sizeof bare), record = lend(KG_RECORD_SIZE - 1, 0);
    put_trns(&room, AT_RMIM, seven, 0);
    refused_by_all(room, KG_BLOCK_MISSING, "an empty TRNS");
    expect(kg_record(room.at, room.size, record.at, record.size) == KG_BLOCK_MISSING, "2 before 4");
    expect(kg_record(room.at, room.size - 1, record.at, record.size) == KG_NOT_A_ROOM, "1 before 2");
    put_trns(&room, (uint32_t)room.size, seven, 1);
    refused_by_all(room, KG_BLOCK_MISSING, "an empty TRNS before a full one");
    room.at[16] = 12;
    refused_by_all(room, KG_BLOCK_MISSING, "2 before 3");
    give_back(room);
    give_back(record);
}

/* What a draw leaves: a byte for each strip, of the pixels of row 0, those of row 1, and the rows of planes 1 and 2. */
struct painted {
    uint8_t above[STRIPS], below[STRIPS], plane_1[STRIPS], plane_2[STRIPS];
};

static void surfaces_are(struct lent pixels, struct lent masks, const struct painted *p, const char *what)
{
    uint32_t s, y;
    for (s = 0; s < STRIPS; s++) {
        expect(all(pixels.at + 8 * s, 8, p->above[s]) && all(pixels.at + WIDTH + 8 * s, 8, p->below[s]), what);
        for (y = 0; y < HEIGHT; y++) {
            expect(masks.at[y * STRIPS + s] == p->plane_1[s] && masks.at[(HEIGHT + y) * STRIPS + s] == p->plane_2[s], what);
        }
    }
}

static const struct painted loaded = { { 5, 7, 255 }, { 5, 7, 255 }, { 0x0F, 0x0F, 0x0F }, { 0x3C, 0x3C, 0x3C } };

/* All pixels painted and all rows replaced, in plane 2, which the object doesn't have, by zeros. */
static const struct painted opaque = { { 7, 255, 7 }, { 255, 9, 7 }, { 0xC0, 0xC0, 0xC0 }, { 0, 0, 0 } };

/* The background is painted whatever its values and codes; state 1 is as said, state 2 opaque. A hide and take-backs leave what was there. */
static void draws(struct lent room, const struct painted *state_1, const char *what)
{
    struct lent session = lend(KG_SESSION_SIZE, 0), pixels = lend(WIDTH * HEIGHT, 1), masks = lend(STRIPS * HEIGHT * PLANES, 2);
    expect(kg_load(BUFFERS) == KG_ACCEPTED, what);
    surfaces_are(pixels, masks, &loaded, what);
    expect(kg_draw_last(BUFFERS, 1, 1) == KG_ACCEPTED, what);
    surfaces_are(pixels, masks, state_1, what);
    expect(kg_draw_at(BUFFERS, 1, 2, 0, 0) == KG_ACCEPTED, what);
    surfaces_are(pixels, masks, &opaque, "an opaque code under any index");
    expect(kg_hide(BUFFERS, 1) == KG_ACCEPTED, what);
    surfaces_are(pixels, masks, &loaded, "a hide");
    expect(kg_take_back(BUFFERS) == KG_ACCEPTED, what);
    surfaces_are(pixels, masks, &opaque, "a hide that is taken back");
    expect(kg_take_back(BUFFERS) == KG_ACCEPTED, what);
    surfaces_are(pixels, masks, state_1, "the draw of state 2 that is taken back");
    expect(kg_take_back(BUFFERS) == KG_ACCEPTED, what);
    surfaces_are(pixels, masks, &loaded, "the draw of state 1 that is taken back");
    give_back(room);
    give_back(session);
    give_back(pixels);
    give_back(masks);
}

/* A strip with a pixel of the index keeps what is under that pixel and ORs its rows (CF; plane 2 stays 3C). A strip without one is opaque
 * under any code: its 255s are painted and its rows replace. */
static void painting(void)
{
    static const struct painted by_7 = { { 5, 255, 255 }, { 255, 9, 255 }, { 0xCF, 0xC0, 0xCF }, { 0x3C, 0, 0x3C } };
    static const struct painted by_9 = { { 7, 255, 7 }, { 255, 7, 7 }, { 0xC0, 0xCF, 0xC0 }, { 0, 0x3C, 0 } };
    static const struct painted by_255 = { { 7, 7, 7 }, { 5, 9, 7 }, { 0xCF, 0xCF, 0xC0 }, { 0x3C, 0x3C, 0 } };
    uint32_t i;
    draws(room_of(bare, sizeof bare), &by_255, "no TRNS");
    for (i = 0; i < 256; i++)
        draws(room_with((uint8_t)i), i == 7 ? &by_7 : i == 9 ? &by_9 : i == 255 ? &by_255 : &opaque, "a room's own index");
}

/* Only backgrounds are compared, and these are painted whatever the index. */
static void comparisons(void)
{
    struct lent one = room_with(7), other = room_with(255), list = lend(KG_MAX_DIFFERENCES, 0x77);
    expect(kg_compare(one.at, one.size, other.at, other.size, list.at, list.size) == 0 && all(list.at, list.size, 0x77), "rooms of two indexes");
    give_back(one);
    give_back(other);
    give_back(list);
}

/* A picture of all 256 colours: each index leaves out its own pixel, wherever it stands. */
static void stamps(void)
{
    enum { W = KG_MAX_PICTURE_WIDTH, H = 2 };
    struct lent frame = lend(W * H, 0), picture = lend(W * H, 0), masks = lend(0, 0);
    volatile uint32_t wide;
    uint32_t clear, i;
    for (i = 0; i < picture.size; i++) picture.at[i] = (uint8_t)(77 * i + 5);
    for (clear = 0; clear < 1024; clear++) {
        for (i = 0; i < frame.size; i++) frame.at[i] = (uint8_t)~picture.at[i];
        wide = clear;   /* volatile, so that the byte is made when the program runs, from a number that doesn't fit one */
        expect(kg_stamp(frame.at, frame.size, masks.at, masks.size, picture.at, picture.size, W, H, 0, W, H, 0, 0, 0, (uint8_t)wide) == KG_ACCEPTED,
               "a stamp with any index");
        for (i = 0; i < frame.size; i++)
            expect((frame.at[i] == picture.at[i]) == (picture.at[i] != clear % 256), "all pixels but those of the index");
    }
    give_back(frame);
    give_back(picture);
    give_back(masks);
}

/* A room from a file with its own index, as a host does it: the index of the record goes to the stamp. */
static void room_from_file(struct lent room)
{
    static const uint8_t seven[2] = { 7, 0 }, colours[8] = { 7, 255, 7, 9, 255, 7, 0, 255 };
    struct lent changed = room_of(room.at, room.size), frame = lend(8, 0x77), masks = lend(0, 0);
    uint8_t record[KG_RECORD_SIZE];
    uint32_t with, i;
    for (with = 0; with < 2; with++) {
        if (with) put_trns(&changed, AT_RMIM, seven, sizeof seven);
        memset(frame.at, 0x77, frame.size);
        expect(kg_record(changed.at, changed.size, record, sizeof record) == KG_ACCEPTED, "the room of the file");
        expect(record[KG_RECORD_TRANSPARENT] == (with ? 7 : 255), "its index");
        expect(kg_stamp(frame.at, frame.size, masks.at, masks.size, colours, sizeof colours, 8, 1, 0, 8, 1, 0, 0, 0,
                        record[KG_RECORD_TRANSPARENT]) == KG_ACCEPTED, "a stamp with the room's index");
        for (i = 0; i < 8; i++) expect(frame.at[i] == (colours[i] == (with ? 7 : 255) ? 0x77 : colours[i]), "what is painted");
    }
    give_back(changed);
    give_back(frame);
    give_back(masks);
}

int main(int argc, char **argv)
{
    struct lent room = given_room("transparent", argc, argv);
    expect(sizeof bare == AT_END, "the literal room's length");
    which_block();
    empty_block();
    painting();
    comparisons();
    stamps();
    room_from_file(room);
    return passed(room);
}
