/* Calls every function of include/kildegrom.h over the C interface: the sample room is loaded, written again block by block, loaded from
 * what was written, an actor is stamped behind its plane, a cast is painted, rooms are listed and compared. Guard bytes stand around each
 * lent buffer. */
#include "room.h"

enum { WIDTH = 320, HEIGHT = 144, STRIPS = WIDTH / 8 };

static struct lent one_short(struct lent b)
{
    b.size--;
    return b;
}

static void record_and_objects(struct lent room)
{
    struct lent record = lend(KG_RECORD_SIZE + 3, 0x77);
    struct lent header = lend(KG_HEADER_SIZE, 0x77);
    uint64_t name;
    expect(kg_record(room.at, room.size, record.at, KG_RECORD_SIZE - 1) == KG_BUFFER_SHORT, "a record of 15 bytes");
    expect(all(record.at, record.size, 0x77), "a refused record is unchanged");
    expect(kg_record(room.at, room.size, record.at, record.size) == KG_ACCEPTED, "the record");
    expect(kg_u16(record.at + KG_RECORD_WIDTH) == WIDTH && kg_u16(record.at + KG_RECORD_HEIGHT) == HEIGHT, "the record's size");
    expect(kg_u16(record.at + KG_RECORD_PLANES) == 1 && kg_u16(record.at + KG_RECORD_OBJECTS) == 3, "the record's counts");
    expect(record.at[KG_RECORD_TRANSPARENT] == 255 && all(record.at + 9, 7, 0) && all(record.at + 16, 3, 0x77), "the record's end");
    expect(kg_record(room.at, room.size - 1, record.at, record.size) == KG_NOT_A_ROOM, "a room that is cut");
    expect(kg_header(room.at, room.size, header.at, header.size, 0) == KG_NO_SUCH_OBJECT, "object 0");
    expect(kg_header(room.at, room.size, header.at, header.size, 4) == KG_NO_SUCH_OBJECT, "object 4 of 3");
    expect(kg_header(room.at, room.size, header.at, header.size, 0xFFFFFFFFu) == KG_NO_SUCH_OBJECT, "object 2^32 - 1");
    expect(all(header.at, header.size, 0x77), "a refused header is unchanged");
    expect(kg_header(room.at, room.size, header.at, header.size, 3) == KG_ACCEPTED, "object 3");
    expect(kg_u16(header.at + KG_HEADER_ID) == 103 && header.at[KG_HEADER_X] == 30, "the header");
    expect(kg_i16(header.at + KG_HEADER_WALK_X) == -25 && kg_i16(header.at + KG_HEADER_WALK_Y) == 110, "the header's walk point");
    name = kg_name(room.at, room.size, 1);
    expect(kg_name_length(name) == 8 && memcmp(room.at + kg_name_start(name), "door@@@@", 8) == 0, "the name of object 1");
    expect(kg_name_number(room.at, room.size, 1) == KG_ACCEPTED && kg_name_number(room.at, room.size, 9) == KG_NO_SUCH_OBJECT, "the name's number");
    expect(kg_name(room.at, room.size, 9) == 0, "a refused name");
    give_back(record);
    give_back(header);
}

static void load_and_write(struct lent room)
{
    struct lent session = lend(KG_SESSION_SIZE + 5, 0x33), pixels = lend(WIDTH * HEIGHT, 1), masks = lend(STRIPS * HEIGHT, 2);
    struct lent again = lend(WIDTH * HEIGHT, 3), masks_again = lend(STRIPS * HEIGHT, 4), copy;
    expect(kg_load(room.at, room.size, session.at, session.size, pixels.at, pixels.size - 1, masks.at, masks.size) == KG_BUFFER_SHORT, "pixels one short");
    expect(kg_load(room.at, room.size, session.at, KG_SESSION_SIZE - 1, pixels.at, pixels.size, masks.at, masks.size) == KG_BUFFER_SHORT,
           "a session one short");
    expect(all(pixels.at, pixels.size, 1) && all(masks.at, masks.size, 2) && all(session.at, session.size, 0x33), "a refused load changes nothing");
    expect(kg_load(room.at, room.size, session.at, session.size, pixels.at, pixels.size, masks.at, masks.size) == KG_ACCEPTED, "the load");
    expect(all(session.at, KG_SESSION_SIZE, 0) && all(session.at + KG_SESSION_SIZE, 5, 0x33), "the emptied session");
    expect(pixels.at[0] == 40 && pixels.at[16] == 42 && masks.at[90 * STRIPS] == 255 && masks.at[50 * STRIPS + 4] == 0x3C, "the surfaces");
    copy = room_of(pixels, masks, WIDTH, HEIGHT, 1);
    expect(kg_load(copy.at, copy.size, session.at, session.size, again.at, again.size, masks_again.at, masks_again.size) == KG_ACCEPTED,
           "the load of what was written");
    expect(memcmp(pixels.at, again.at, pixels.size) == 0 && memcmp(masks.at, masks_again.at, masks.size) == 0, "what was written reads back");
    give_back(copy);
    give_back(session);
    give_back(again);
    give_back(masks_again);

    {   /* an actor of 8 by 8 pixels behind the plane's row of 255s, from row 88 on; its pixels of 255 are clear */
        struct lent actor = lend(64, 9);
        actor.at[0] = actor.at[6] = 255;
        expect(kg_hidden(masks.at, masks.size, WIDTH, HEIGHT, 1, 1, 0, 90) == (uint64_t)1 << 32, "a hidden pixel");
        expect(kg_hidden(masks.at, masks.size, WIDTH, HEIGHT, 1, 2, 0, 90) == 0 &&
               kg_hidden(masks.at, masks.size, WIDTH, HEIGHT, 1, 0, 0, 90) == 0, "clips that name no plane");
        expect(kg_hidden(masks.at, masks.size, WIDTH, HEIGHT, 1, 1, WIDTH, 0) == KG_POINT_OUTSIDE, "a point outside");
#define STAMP(w, x, y) kg_stamp(pixels.at, pixels.size, masks.at, masks.size, actor.at, actor.size, WIDTH, HEIGHT, 1, w, 8, x, y, 1, 255)
        expect(STAMP(8, -4, 84) == KG_ACCEPTED, "the stamp");
        expect(pixels.at[84 * WIDTH] == 9 && pixels.at[84 * WIDTH + 2] != 255, "what the stamp paints");
        expect(pixels.at[87 * WIDTH + 3] == 9 && pixels.at[87 * WIDTH + 4] != 9 && pixels.at[88 * WIDTH] != 9, "the stamped frame");
        expect(STAMP(8, INT32_MIN, INT32_MAX) == KG_ACCEPTED, "a stamp far away");
        expect(STAMP(129, 0, 0) == KG_OUT_OF_SIZE, "a picture 129 wide");
#undef STAMP
        give_back(actor);
    }
    give_back(pixels);
    give_back(masks);
}

/* The lent buffers of a session, in the order of every call. */
#define BUFFERS room.at, room.size, session.at, session.size, pixels.at, pixels.size, masks.at, masks.size

/* Draws, a hide and their take-backs: what they leave is what they found. */
static void steps(struct lent room)
{
    struct lent session = lend(KG_SESSION_SIZE, 0), pixels = lend(WIDTH * HEIGHT, 1), masks = lend(STRIPS * HEIGHT, 2);
    struct lent bare = lend(WIDTH * HEIGHT, 3), bare_masks = lend(STRIPS * HEIGHT, 4);
    int taken;
    expect(kg_load(BUFFERS) == KG_ACCEPTED, "the load before the steps");
    memcpy(bare.at, pixels.at, pixels.size);
    memcpy(bare_masks.at, masks.at, masks.size);
    expect(kg_take_back(BUFFERS) == KG_NOTHING_TO_TAKE_BACK, "a take-back without a step");
    expect(kg_hide(BUFFERS, 1) == KG_NO_SUCH_OBJECT, "a hide of an object that isn't shown");
    expect(kg_draw_last(BUFFERS, 3, 1) == KG_NO_SUCH_OBJECT && kg_draw_last(BUFFERS, 1, 9) == KG_NO_SUCH_OBJECT, "no such image");
    expect(kg_draw_at(BUFFERS, 1, 1, 255, 0) == KG_PLACE_NOT_ALLOWED, "a place outside the room");
    expect(all(session.at, session.size, 0) && memcmp(pixels.at, bare.at, bare.size) == 0, "refused steps change nothing");
    expect(kg_draw_last(BUFFERS, 1, 1) == KG_ACCEPTED && session.at[0] == 1, "a draw");
    expect(memcmp(pixels.at, bare.at, bare.size) != 0, "the drawn pixels");
    expect(kg_draw_at(BUFFERS, 2, 2, 0, 0) == KG_ACCEPTED && kg_hide(BUFFERS, 1) == KG_ACCEPTED && session.at[0] == 3, "a draw elsewhere and a hide");
    for (taken = 0; taken < 3; taken++)
        expect(kg_take_back(BUFFERS) == KG_ACCEPTED, "a take-back");
    expect(session.at[0] == 0 && session.at[1] == 0, "the session after the take-backs");
    expect(memcmp(pixels.at, bare.at, bare.size) == 0 && memcmp(masks.at, bare_masks.at, bare_masks.size) == 0, "the surfaces after the take-backs");
    session.at[0] = 1;
    expect(kg_draw_last(BUFFERS, 1, 1) == KG_OTHER_SESSION, "a session that the room doesn't give");
    give_back(session);
    give_back(pixels);
    give_back(masks);
    give_back(bare);
    give_back(bare_masks);
}

/* The object under points of the cellar: object 1's box is at (80, 40), 32 by 56; object 2's is at (192, 72), 24 by 32, and is found while
 * object 1, its parent, is shown. */
static void points(struct lent room)
{
    struct lent session = lend(KG_SESSION_SIZE, 0), pixels = lend(WIDTH * HEIGHT, 1), masks = lend(STRIPS * HEIGHT, 2), flags = lend(3, 0);
#define AT(x, y) kg_object_at(room.at, room.size, session.at, session.size, flags.at, flags.size, x, y)
    expect(kg_load(BUFFERS) == KG_ACCEPTED, "the load before the points");
    expect(kg_number(AT(80, 40)) == KG_ACCEPTED && kg_value(AT(80, 40)) == 1 && kg_value(AT(111, 95)) == 1, "the corners of a box");
    expect(AT(79, 40) == 0 && AT(112, 95) == 0 && AT(80, 39) == 0 && AT(111, 96) == 0, "beside a box");
    expect(AT(WIDTH, 0) == KG_POINT_OUTSIDE && AT(0, HEIGHT) == KG_POINT_OUTSIDE && AT(0xFFFFFFFFu, 0) == KG_POINT_OUTSIDE, "outside the room");
    expect(kg_draw_at(BUFFERS, 2, 1, 10, 5) == KG_ACCEPTED, "a draw at (80, 40)");
    expect(kg_value(AT(80, 40)) == 1, "the lower number of two boxes");
    flags.at[0] = 1;
    expect(AT(80, 40) == 0, "an object whose parent has state 0 isn't found");
    expect(kg_draw_last(BUFFERS, 1, 2) == KG_ACCEPTED && kg_value(AT(80, 40)) == 2, "a parent that is shown opens, whatever its flag byte");
    expect(AT(192, 72) == 0 && kg_value(AT(103, 71)) == 2 && AT(104, 71) == 0, "a moved box");
    flags.size = 2;
    expect(AT(80, 40) == KG_BUFFER_SHORT, "a flag byte for each object");
    flags.size = 3;
    session.at[1] = 0;
    expect(AT(WIDTH, 0) == KG_OTHER_SESSION, "9 goes before 14");
#undef AT
    give_back(session);
    give_back(pixels);
    give_back(masks);
    give_back(flags);
}

static uint32_t listed(struct lent room, struct lent record, struct lent rows)
{
    return kg_list(room.at, room.size, record.at, record.size, rows.at, rows.size);
}

/* The cellar's listing against the calls that it stands for: kg_record, kg_header and kg_name, and draws in a fresh session. */
static void list_against_the_calls(struct lent room)
{
    struct lent record = lend(KG_RECORD_SIZE, 0x77), alone = lend(KG_RECORD_SIZE, 0x78), rows = lend(3 * KG_ROW_SIZE, 0x79);
    struct lent session = lend(KG_SESSION_SIZE, 0), pixels = lend(WIDTH * HEIGHT, 1), masks = lend(STRIPS * HEIGHT, 2);
    uint32_t object, state;
    expect(listed(room, record, rows) == KG_ACCEPTED, "a listing with buffers exactly long enough");
    expect(kg_record(room.at, room.size, alone.at, alone.size) == KG_ACCEPTED && memcmp(record.at, alone.at, record.size) == 0, "its record");
    for (object = 1; object <= 3; object++) {
        const uint8_t *row = kg_row_at(rows.at, object);
        const uint64_t name = kg_name(room.at, room.size, object);
        expect(kg_header(room.at, room.size, alone.at, alone.size, object) == KG_ACCEPTED, "the header of a listed object");
        expect(memcmp(row + KG_ROW_HEADER, alone.at, KG_HEADER_SIZE) == 0, "a row's header");
        expect(kg_u32(row + KG_ROW_NAME_START) == kg_name_start(name) && kg_u32(row + KG_ROW_NAME_LENGTH) == kg_name_length(name), "a row's name");
        for (state = 0; state <= 16; state++) {
            memset(session.at, 0, session.size);
            expect((kg_draw_last(BUFFERS, object, state) != KG_NO_SUCH_OBJECT) == (kg_row_has_state(row, state) == 1), "a state that can be drawn");
        }
        expect(kg_u16(row + KG_ROW_STATES) == (object < 3 ? 3u : 0u) && all(row + 26, 6, 0), "a row's states, and its end");
    }
    give_back(record);
    give_back(alone);
    give_back(rows);
    give_back(session);
    give_back(pixels);
    give_back(masks);
}

/* What is lent is exactly long enough, longer, or short; a refused listing changes neither record nor rows. */
static void list_lengths(struct lent room)
{
    struct lent record = lend(KG_RECORD_SIZE + 5, 0x77), rows = lend(KG_MAX_ROWS + 3, 0x79), few_rows = rows, short_record = record;
    size_t size;
    for (size = 0; size < 3 * KG_ROW_SIZE; size++) {
        few_rows.size = size;
        expect(listed(room, record, few_rows) == KG_BUFFER_SHORT, "rows too short");
    }
    for (size = 0; size < KG_RECORD_SIZE; size++) {
        short_record.size = size;
        expect(listed(room, short_record, rows) == KG_BUFFER_SHORT && listed(room, short_record, few_rows) == KG_BUFFER_SHORT, "a record too short");
    }
    expect(all(record.at, record.size, 0x77) && all(rows.at, rows.size, 0x79), "a refused listing changes nothing");
    expect(listed(room, record, rows) == KG_ACCEPTED && kg_u16(record.at + KG_RECORD_OBJECTS) == 3, "longer buffers");
    expect(all(record.at + KG_RECORD_SIZE, 5, 0x77), "the bytes behind the record stay");
    expect(all(rows.at + 3 * KG_ROW_SIZE, rows.size - 3 * KG_ROW_SIZE, 0x79), "the bytes behind the last row stay");
    give_back(record);
    give_back(rows);
}

/* Blocks of objects and images, put behind a room's own. Objects 1 and 2 share id 5, whose first image has IM09, IM03 and an IM01 inside another
 * block under numImages 9; object 3 has IM01 to IM03 without IM02 under numImages 2; object 4 has IM01 and IM10 under 0x0100; object 5 no image.
 * Their names: up to a NUL; an empty OBNA, before one that isn't; no NUL; a NUL alone; no OBNA. */
static const uint8_t listed_blocks[] = {
    'O', 'B', 'C', 'D', 0, 0, 0, 41, 'O', 'B', 'N', 'A', 0, 0, 0, 12, 'k', '@', 0, 'x',
    'C', 'D', 'H', 'D', 0, 0, 0, 21, 5, 0, 1, 2, 3, 4, 0x80, 9, 0xE7, 0xFF, 40, 0, 2,
    'O', 'B', 'I', 'M', 0, 0, 0, 64, 'I', 'M', '0', '9', 0, 0, 0, 16, 'I', 'M', '0', '1', 0, 0, 0, 8,
    'I', 'M', 'H', 'D', 0, 0, 0, 24, 5, 0, 9, 0, 0, 0, 0, 0, 0, 0, 0, 0, 8, 0, 8, 0, 'I', 'M', '0', '3', 0, 0, 0, 8, 'X', 'X', 'X', 'X', 0, 0, 0, 8,
    'O', 'B', 'C', 'D', 0, 0, 0, 47, 'C', 'D', 'H', 'D', 0, 0, 0, 22, 5, 0, 0, 0, 0, 0, 0, 0, 0, 0, 0, 0, 0, 0x66,
    'O', 'B', 'N', 'A', 0, 0, 0, 8, 'O', 'B', 'N', 'A', 0, 0, 0, 9, 'z',
    'O', 'B', 'I', 'M', 0, 0, 0, 40, 'I', 'M', 'H', 'D', 0, 0, 0, 24, 5, 0, 9, 0, 0, 0, 0, 0, 0, 0, 0, 0, 8, 0, 8, 0, 'I', 'M', '0', '2', 0, 0, 0, 8,
    'O', 'B', 'C', 'D', 0, 0, 0, 40, 'C', 'D', 'H', 'D', 0, 0, 0, 21, 6, 0, 0, 0, 0, 0, 0, 0, 0, 0, 0, 0, 0,
    'O', 'B', 'N', 'A', 0, 0, 0, 11, 'c', 'u', 'p',
    'O', 'B', 'I', 'M', 0, 0, 0, 48, 'I', 'M', 'H', 'D', 0, 0, 0, 24, 6, 0, 2, 0, 0, 0, 0, 0, 0, 0, 0, 0, 8, 0, 8, 0,
    'I', 'M', '0', '1', 0, 0, 0, 8, 'I', 'M', '0', '3', 0, 0, 0, 8,
    'O', 'B', 'C', 'D', 0, 0, 0, 38, 'C', 'D', 'H', 'D', 0, 0, 0, 21, 7, 1, 0, 0, 0, 0, 0, 0, 0, 0, 0, 0, 0, 'O', 'B', 'N', 'A', 0, 0, 0, 9, 0,
    'O', 'B', 'I', 'M', 0, 0, 0, 48, 'I', 'M', 'H', 'D', 0, 0, 0, 24, 7, 1, 0, 1, 0, 0, 0, 0, 0, 0, 0, 0, 8, 0, 8, 0,
    'I', 'M', '1', '0', 0, 0, 0, 8, 'I', 'M', '0', '1', 0, 0, 0, 8,
    'O', 'B', 'C', 'D', 0, 0, 0, 29, 'C', 'D', 'H', 'D', 0, 0, 0, 21, 8, 0, 0, 0, 0, 0, 0, 0, 0, 0, 0, 0, 0,
};

/* Where each object's name stands in these blocks, 0 for none; its length; its states. */
static const uint32_t listed_fields[5][3] = { { 16, 2, 0x104 }, { 143, 0, 0x104 }, { 229, 3, 1 }, { 317, 0, 1 }, { 0, 0, 0 } };

/* A room of 8 by 1 pixels with these blocks. */
static struct lent room_with_blocks(const uint8_t *blocks, size_t size)
{
    struct lent pixels = lend(8, 9), masks = lend(1, 0), bare = room_of(pixels, masks, 8, 1, 1), out = lend(bare.size + size, 0);
    memcpy(out.at, bare.at, bare.size);
    memcpy(out.at + bare.size, blocks, size);
    put_head(out.at, "ROOM", (uint32_t)out.size);
    give_back(pixels);
    give_back(masks);
    give_back(bare);
    return out;
}

/* Rows of names and images of every kind, as the blocks above say them. */
static void list_made_room(void)
{
    struct lent room = room_with_blocks(listed_blocks, sizeof listed_blocks), record = lend(KG_RECORD_SIZE, 0x77), rows = lend(5 * KG_ROW_SIZE, 0x79);
    static const uint8_t first[KG_HEADER_SIZE] = { 5, 0, 1, 2, 3, 4, 0x80, 9, 0xE7, 0xFF, 40, 0, 2, 0, 0, 0 };
    static const uint8_t second[KG_HEADER_SIZE] = { 5, 0, 0, 0, 0, 0, 0, 0, 0, 0, 0, 0, 0, 0, 0, 0 };
    const uint32_t before = (uint32_t)(room.size - sizeof listed_blocks);
    uint32_t o;
    expect(listed(room, record, rows) == KG_ACCEPTED && kg_u16(record.at + KG_RECORD_OBJECTS) == 5, "the made room");
    expect(memcmp(rows.at, first, sizeof first) == 0 && memcmp(kg_row_at(rows.at, 2), second, sizeof second) == 0, "CDHD's 13 bytes and no more");
    for (o = 1; o <= 5; o++) {
        const uint8_t *row = kg_row_at(rows.at, o);
        const uint32_t *field = listed_fields[o - 1];
        expect(kg_u32(row + KG_ROW_NAME_START) == (field[0] == 0 ? 0 : before + field[0]), "where a name stands, also an empty one");
        expect(kg_u32(row + KG_ROW_NAME_LENGTH) == field[1] && kg_u16(row + KG_ROW_STATES) == field[2] && all(row + 26, 6, 0), "its length, the states");
    }
    give_back(room);
    give_back(record);
    give_back(rows);
}

/* 1, 2 and 3 go before 4, and 4 before 5 to 8; without objects no rows are needed. */
static void list_refusals(void)
{
    struct lent record = lend(KG_RECORD_SIZE, 0x77), rows = lend(2 * KG_ROW_SIZE, 0x79), room = room_with_blocks(listed_blocks, sizeof listed_blocks);
    struct lent bare = room_with_blocks(listed_blocks, 0), no_rows = rows;
    no_rows.size = 0;
    expect(listed(one_short(room), one_short(record), no_rows) == KG_NOT_A_ROOM, "1 before 4");
    room.at[16] = 12;
    expect(listed(room, one_short(record), rows) == KG_OUT_OF_SIZE, "3 before 4");
    room.at[room.size - 18] = 'X';
    expect(listed(room, one_short(record), rows) == KG_BLOCK_MISSING, "2 before 3, and before 4");
    room.at[room.size - 18] = 'D';
    room.at[16] = 8;
    room.at[60] = 0x13;
    expect(listed(room, record, rows) == KG_BUFFER_SHORT, "rows for two objects of five, before 6");
    expect(all(record.at, record.size, 0x77) && all(rows.at, rows.size, 0x79), "refused listings change nothing");
    expect(listed(bare, record, no_rows) == KG_ACCEPTED && kg_u16(record.at + KG_RECORD_OBJECTS) == 0, "no object, no rows");
    expect(listed(bare, record, rows) == KG_ACCEPTED && all(rows.at, rows.size, 0x79), "rows without objects stay");
    memset(record.at, 0x77, record.size);
    bare.at[60] = 0x13;
    expect(listed(bare, record, no_rows) == KG_CODE_UNKNOWN && listed(bare, one_short(record), no_rows) == KG_BUFFER_SHORT, "6 behind 4");
    bare.at[56] = 0;
    expect(listed(bare, record, no_rows) == KG_TABLE_WRONG && listed(bare, one_short(record), no_rows) == KG_BUFFER_SHORT, "5 behind 4");
    expect(all(record.at, record.size, 0x77), "and leave the record");
    give_back(record);
    give_back(rows);
    give_back(room);
    give_back(bare);
}

static void listings(struct lent room)
{
    list_against_the_calls(room);
    list_lengths(room);
    list_made_room();
    list_refusals();
}

/* One call out of the four, as the number picks it: a take-back where it is a multiple of 8. */
static uint32_t call_picked(struct lent room, struct lent session, struct lent pixels, struct lent masks, uint32_t pick)
{
    uint32_t object = pick / 8 % 4, state = pick / 32 % 3;
    if (pick % 8 == 0)
        return kg_take_back(BUFFERS);
    if (pick % 8 == 1)
        return kg_hide(BUFFERS, object);
    if (pick % 8 < 5)
        return kg_draw_last(BUFFERS, object, state);
    return kg_draw_at(BUFFERS, object, state, pick / 128 % 42, pick / 64 % 20);
}

/* A fixed list of 2,000 calls: each accepted take-back leaves the surfaces as they stood before its step, each refusal leaves all as it is. */
static void list_of_steps(struct lent room)
{
    struct lent session = lend(KG_SESSION_SIZE, 0), pixels = lend(WIDTH * HEIGHT, 1), masks = lend(STRIPS * HEIGHT, 2);
    struct lent earlier = lend(65 * WIDTH * HEIGHT, 3), earlier_masks = lend(65 * STRIPS * HEIGHT, 4);
    uint32_t seed = 1, number, pick;
    int call, depth = 0, deepest = 0;
    expect(kg_load(BUFFERS) == KG_ACCEPTED, "the load before the list of steps");
    for (call = 0; call < 2000; call++) {
        int before = session.at[0], back;
        memcpy(earlier.at + depth * pixels.size, pixels.at, pixels.size);
        memcpy(earlier_masks.at + depth * masks.size, masks.at, masks.size);
        seed = seed * 1664525u + 1013904223u;
        pick = seed >> 16;
        back = pick % 8 == 0;
        number = call_picked(room, session, pixels, masks, pick);
        depth += number != KG_ACCEPTED ? 0 : back ? -1 : 1;
        deepest = depth > deepest ? depth : deepest;
        expect(session.at[0] == depth && (number == KG_ACCEPTED || before == depth), "the steps in the history");
        if (number != KG_ACCEPTED || back) {
            expect(memcmp(pixels.at, earlier.at + depth * pixels.size, pixels.size) == 0, "the pixels of an earlier state");
            expect(memcmp(masks.at, earlier_masks.at + depth * masks.size, masks.size) == 0, "the masks of an earlier state");
        }
        expect(number != KG_HISTORY_FULL || depth == 64, "a history of 64 steps");
    }
    expect(deepest == 64, "a full history was reached");
    give_back(session);
    give_back(pixels);
    give_back(masks);
    give_back(earlier);
    give_back(earlier_masks);
}

/* The compiler holds the struct against docs/LAYOUTS.md: every field has four bytes, at its place. */
#define FIELD_AT(field, at) \
    typedef char field##_is_at_##at[offsetof(struct kg_actor, field) == (at) && sizeof(((struct kg_actor *)0)->field) == 4 ? 1 : -1]
FIELD_AT(id, 0);
FIELD_AT(y, 4);
FIELD_AT(left, 8);
FIELD_AT(top, 12);
FIELD_AT(width, 16);
FIELD_AT(height, 20);
FIELD_AT(clip, 24);
FIELD_AT(start, 28);
#undef FIELD_AT
typedef char an_actor_has_32_bytes[sizeof(struct kg_actor) == 32 && KG_ACTOR_SIZE == 32 ? 1 : -1];

/* Three actors of 8 by 8 pixels, in the order in which they are painted: far away; nearer, behind plane 1 from row 88 on; nearer still by
 * its id, before every plane. Each has a picture of one colour, 11, 12 or 13. */
static const struct kg_actor three_actors[3] = { { 9, 80, 2, 80, 8, 8, 1, 0 }, { 2, 91, 4, 84, 8, 8, 1, 64 }, { 7, 91, 0, 84, 8, 8, 0, 128 } };

/* The call on this many actors of a list, in a room of this width. */
static uint32_t cast_of(size_t count, struct lent list, struct lent frame, struct lent masks, struct lent pictures, uint32_t w)
{
    return kg_cast((struct kg_actor *)(void *)list.at, count, frame.at, frame.size, masks.at, masks.size, pictures.at, pictures.size, w, HEIGHT, 1, 255);
}

/* What refuses a cast, in its order. The list has 33 actors: the three, the one that is painted last first, and others like the first. */
static void cast_refusals(struct lent list, struct lent frame, struct lent masks, struct lent pictures)
{
    struct lent list_before = lend(list.size, 0), frame_before = lend(frame.size, 0), cut = one_short(pictures);
    struct kg_actor *last = (struct kg_actor *)(void *)list.at + 31;
    last->start = 129;
    memcpy(list_before.at, list.at, list.size);
    memcpy(frame_before.at, frame.at, frame.size);
    expect(cast_of(33, list, frame, masks, cut, 0) == KG_CAST_TOO_LARGE, "33 actors, before the room's size");
    expect(cast_of(32, list, one_short(frame), masks, cut, WIDTH + 4) == KG_OUT_OF_SIZE, "a room's width, before its frame");
    expect(cast_of(3, list, one_short(frame), masks, pictures, WIDTH) == KG_BUFFER_SHORT, "a frame one short");
    expect(cast_of(3, list, frame, one_short(masks), pictures, WIDTH) == KG_BUFFER_SHORT, "masks one short");
    expect(cast_of(3, list, frame, masks, cut, WIDTH) == KG_BUFFER_SHORT, "pictures one short");
    expect(cast_of(32, list, frame, masks, pictures, WIDTH) == KG_BUFFER_SHORT, "a start one too far");
    expect(cast_of(0, list, frame, masks, cut, 0) == KG_OUT_OF_SIZE, "an empty list has the frame's 3");
    expect(cast_of(0, list, one_short(frame), masks, cut, WIDTH) == KG_BUFFER_SHORT, "an empty list has the frame's 4");
    expect(cast_of(0, list, frame, one_short(masks), cut, WIDTH) == KG_BUFFER_SHORT, "an empty list has the planes' 4");
    expect(cast_of(0, list, frame, masks, cut, WIDTH) == KG_ACCEPTED, "an empty list");
    expect(memcmp(list.at, list_before.at, list.size) == 0, "refused and empty casts leave the list");
    last->width = 0;
    expect(cast_of(32, list, frame, masks, pictures, WIDTH) == KG_OUT_OF_SIZE, "an actor's size before its buffer");
    expect(cast_of(32, list, frame, masks, cut, WIDTH) == KG_BUFFER_SHORT, "the first bad actor in the list as handed in");
    last->width = 8;
    expect(memcmp(list.at, list_before.at, list.size) == 0 && memcmp(frame.at, frame_before.at, frame.size) == 0, "and the frame");
    give_back(list_before);
    give_back(frame_before);
}

/* The three actors, handed over the other way round: who hides whom, what the plane hides, and the list afterwards. */
static void cast_painted(struct lent list, struct lent frame, struct lent masks, struct lent pictures)
{
    struct lent bare = lend(frame.size, 0);
    int again;
    memcpy(bare.at, frame.at, frame.size);
#define PIXEL(x, y) frame.at[(y) * WIDTH + (x)]
    for (again = 0; again < 2; again++) {
        expect(cast_of(3, list, frame, masks, pictures, WIDTH) == KG_ACCEPTED, "the cast, and once more");
        expect(memcmp(list.at, three_actors, sizeof three_actors) == 0, "the list in painting order");
        expect(PIXEL(9, 81) == 11 && PIXEL(9, 85) == 12 && PIXEL(5, 85) == 13 && PIXEL(2, 87) == 13, "the nearer actor hides the other");
        expect(PIXEL(0, 88) == 13 && PIXEL(7, 91) == 13 && PIXEL(8, 88) == bare.at[88 * WIDTH + 8], "the plane hides its own clip level");
        expect(PIXEL(12, 85) == bare.at[85 * WIDTH + 12] && PIXEL(1, 83) == bare.at[83 * WIDTH + 1], "beside the actors");
    }
#undef PIXEL
    give_back(bare);
}

static void casts(struct lent room)
{
    struct lent session = lend(KG_SESSION_SIZE, 0), pixels = lend(WIDTH * HEIGHT, 1), masks = lend(STRIPS * HEIGHT, 2);
    struct lent list = lend(33 * KG_ACTOR_SIZE, 0), pictures = lend(192, 11);
    size_t i;
    expect(kg_load(BUFFERS) == KG_ACCEPTED, "the load before the casts");
    memset(pictures.at + 64, 12, 64);
    memset(pictures.at + 128, 13, 64);
    for (i = 0; i < 33; i++) memcpy(list.at + i * KG_ACTOR_SIZE, &three_actors[i < 3 ? 2 - i : 0], KG_ACTOR_SIZE);
    cast_refusals(list, pixels, masks, pictures);
    cast_painted(list, pixels, masks, pictures);
    give_back(session);
    give_back(pixels);
    give_back(masks);
    give_back(list);
    give_back(pictures);
}

/* The three changes of `changed_surfaces`: a pixel of strip 0; every pixel and a mask row of strip 20; a mask bit of strip 39. */
static const uint8_t three_places[3 * KG_DIFFERENCE_SIZE] = { 0, 0, 1, 0, 0, 0, 0, 0, 20, 0, 0x80, 4, 1, 0, 0, 0, 39, 0, 0, 0, 1, 0, 0, 0 };

static void changed_surfaces(struct lent pixels, struct lent masks)
{
    uint32_t i;
    pixels.at[7] ^= 1;
    for (i = 0; i < 8 * HEIGHT; i++) pixels.at[i / 8 * WIDTH + 160 + i % 8] ^= 0x80;
    masks.at[20] ^= 0xFF;
    masks.at[(HEIGHT - 1) * STRIPS + 39] ^= 1;
}

static uint64_t compared(struct lent a, struct lent b, struct lent list, size_t list_size)
{
    return kg_compare(a.at, a.size, b.at, b.size, list.at, list_size);
}

/* Lists of every length that matters, of 3 strips that differ. */
static void compare_lists(struct lent room, struct lent changed)
{
    const uint64_t three = (uint64_t)3 << 32;
    struct lent list = lend(sizeof three_places, 0x77), longer = lend(KG_MAX_DIFFERENCES + 3, 0x77);
    expect(compared(room, changed, list, 0) == KG_BUFFER_SHORT, "a list of no place");
    expect(compared(room, changed, list, list.size - 8) == KG_BUFFER_SHORT, "a list one place short");
    expect(compared(room, changed, list, list.size - 1) == KG_BUFFER_SHORT, "a list one byte short");
    expect(all(list.at, list.size, 0x77), "a refused comparison leaves the list");
    expect(compared(room, changed, list, list.size) == three, "a list exactly long enough");
    expect(memcmp(list.at, three_places, sizeof three_places) == 0, "the places");
    memset(list.at, 0x77, list.size);
    expect(compared(changed, room, list, list.size) == three && memcmp(list.at, three_places, list.size) == 0, "the other way round");
    expect(compared(room, changed, longer, 31) == three, "a list of three places and seven bytes");
    expect(memcmp(longer.at, three_places, 24) == 0 && all(longer.at + 24, longer.size - 24, 0x77), "the bytes of no whole place stay");
    memset(longer.at, 0x77, longer.size);
    expect(compared(room, changed, longer, longer.size) == three, "a list longer than any comparison needs");
    expect(memcmp(longer.at, three_places, 24) == 0 && all(longer.at + 24, longer.size - 24, 0x77), "the bytes behind the places stay");
    give_back(list);
    give_back(longer);
}

/* What is alike needs no place: the same bytes, the same bytes elsewhere, and the same content in other blocks. */
static void compare_alike(struct lent room, struct lent rewritten)
{
    struct lent list = lend(KG_MAX_DIFFERENCES, 0x77), copy = lend(room.size, 0);
    memcpy(copy.at, room.at, room.size);
    expect(compared(room, room, list, 0) == 0 && compared(room, room, list, list.size) == 0, "a room against itself, the same bytes");
    expect(compared(room, copy, list, 0) == 0 && compared(room, copy, list, list.size) == 0, "a room against a copy");
    expect(compared(room, rewritten, list, 0) == 0 && compared(rewritten, room, list, list.size) == 0, "objects are not compared");
    expect(all(list.at, list.size, 0x77), "a list without places stays");
    give_back(list);
    give_back(copy);
}

/* Planes up to the larger N: the cellar's plane 1 has a row of bits in every strip. Byte 38 of a room of `room_of` is its N. */
static void compare_planes(struct lent room, struct lent rewritten)
{
    struct lent list = lend(STRIPS * KG_DIFFERENCE_SIZE, 0x77);
    uint32_t s;
    rewritten.at[38] = 4;
    expect(compared(room, rewritten, list, 0) == 0 && compared(rewritten, room, list, 0) == 0, "planes without a block read as zero");
    rewritten.at[38] = 0;
    expect(compared(room, rewritten, list, list.size - 1) == KG_BUFFER_SHORT, "a place for each strip is needed");
    expect(all(list.at, list.size, 0x77), "a comparison with a place too few leaves the list");
    for (s = 0; s < 2; s++) {
        memset(list.at, 0x77, list.size);
        expect((s == 0 ? compared(room, rewritten, list, list.size) : compared(rewritten, room, list, list.size)) == (uint64_t)STRIPS << 32,
               "a plane that one room doesn't declare reads as zero");
    }
    for (s = 0; s < STRIPS; s++) {
        const uint8_t place[KG_DIFFERENCE_SIZE] = { (uint8_t)s, 0, 0, 0, 1, 0, 0, 0 };
        expect(memcmp(list.at + s * KG_DIFFERENCE_SIZE, place, sizeof place) == 0, "strip by strip, left to right");
    }
    rewritten.at[38] = 1;
    give_back(list);
}

/* Rooms of 16 by 2 with 4 and 3 planes: each plane has its bit, plane 4 too, which one room doesn't declare. */
static void compare_four_planes(void)
{
    struct lent pixels = lend(32, 9), masks = lend(16, 0), other = lend(16, 0), list = lend(16, 0x77), a, b;
    const uint8_t both[16] = { 0, 0, 0, 0, 2, 0, 0, 0, 1, 0, 0, 0, 13, 0, 0, 0 };
    masks.at[1] = 0x80;                       /* plane 1, row 0, strip 1 */
    masks.at[4 + 2] = 1;                      /* plane 2, row 1, strip 0 */
    masks.at[8 + 1] = other.at[8 + 1] = 0x18; /* plane 3, row 0, strip 1: in both rooms */
    masks.at[8 + 3] = 0xFF;                   /* plane 3, row 1, strip 1: in one */
    masks.at[12 + 3] = 0x40;                  /* plane 4, row 1, strip 1 */
    a = room_of(pixels, masks, 16, 2, 4);
    b = room_of(pixels, other, 16, 2, 3);
    expect(compared(a, b, list, list.size) == (uint64_t)2 << 32 && memcmp(list.at, both, sizeof both) == 0, "the planes' bits");
    memset(list.at, 0x77, list.size);
    expect(compared(b, a, list, list.size) == (uint64_t)2 << 32 && memcmp(list.at, both, sizeof both) == 0, "and the other way round");
    give_back(a);
    give_back(b);
    give_back(pixels);
    give_back(masks);
    give_back(other);
    give_back(list);
}

/* Every refusal in its place: the first room's, the second's, 16, then 4. */
static void compare_refusals(struct lent room, struct lent rewritten)
{
    struct lent list = lend(KG_MAX_DIFFERENCES, 0x77), cut = room, smaller = lend(rewritten.size, 0), wrong = lend(rewritten.size, 0);
    cut.size--;
    memcpy(smaller.at, rewritten.at, rewritten.size);
    smaller.at[38] = 0;     /* no plane, whose runs a smaller height would cut */
    put_number(smaller.at + 18, HEIGHT - 1);
    memcpy(wrong.at, smaller.at, smaller.size);
    wrong.at[48 + 8 + 4 * STRIPS] = 0x13;
    expect(compared(cut, wrong, list, list.size) == KG_NOT_A_ROOM, "1 of A before 6 of B");
    expect(compared(wrong, cut, list, list.size) == KG_CODE_UNKNOWN, "6 of A before 1 of B");
    expect(compared(cut, room, list, 0) == KG_NOT_A_ROOM && compared(cut, cut, list, list.size) == KG_NOT_A_ROOM, "A's");
    expect(compared(room, cut, list, list.size) == KG_NOT_A_ROOM && compared(room, wrong, list, 0) == KG_CODE_UNKNOWN, "B's before 16, 4");
    expect(compared(room, smaller, list, 0) == KG_SIZES_DIFFER, "16 before 4");
    expect(compared(smaller, room, list, list.size) == KG_SIZES_DIFFER, "another height");
    expect(compared(smaller, smaller, list, 0) == 0, "the smaller room against itself");
    put_number(smaller.at + 16, WIDTH - 8);
    put_number(smaller.at + 18, HEIGHT);
    expect(compared(room, smaller, list, 0) == KG_SIZES_DIFFER, "16 before 4, by the width");
    expect(compared(smaller, room, list, list.size) == KG_SIZES_DIFFER, "another width");
    expect(all(list.at, list.size, 0x77), "refused comparisons leave the list");
    give_back(list);
    give_back(smaller);
    give_back(wrong);
}

static void comparisons(struct lent room)
{
    struct lent session = lend(KG_SESSION_SIZE, 0), pixels = lend(WIDTH * HEIGHT, 1), masks = lend(STRIPS * HEIGHT, 2), same, changed;
    expect(kg_load(BUFFERS) == KG_ACCEPTED, "the load before the comparisons");
    same = room_of(pixels, masks, WIDTH, HEIGHT, 1);
    changed_surfaces(pixels, masks);
    changed = room_of(pixels, masks, WIDTH, HEIGHT, 1);
    compare_lists(room, changed);
    compare_alike(room, same);
    compare_planes(room, same);
    compare_four_planes();
    compare_refusals(room, same);
    give_back(session);
    give_back(pixels);
    give_back(masks);
    give_back(same);
    give_back(changed);
}

/* One record for limb 0: the window of two bytes from stream index 0; the stream is payload bytes 8 and 9. */
static void costume(void)
{
    static const uint8_t payload[] = { 8, 0, 0x00, 0x80, 0, 0, 1, 0, 0x11, 0x79 };
    struct lent limbs = lend(KG_LIMBS_SIZE, 0);
    expect(kg_start(payload, sizeof payload, limbs.at, limbs.size - 1, 0, 1, 14, 0, 0) == KG_BUFFER_SHORT, "limbs one short");
    expect(kg_start(payload, sizeof payload, limbs.at, limbs.size, 0, 1, 14, 0, 1) == KG_ANIMATION_WRONG, "a record past the count");
    expect(kg_start(payload, sizeof payload, limbs.at, limbs.size, 0, 1, 14, 0, 0) == (uint64_t)1 << 32, "the start");
    expect(kg_limb_draws(limbs.at, limbs.size, 0) == 0, "a limb draws nothing before its first tick");
    expect(kg_tick(payload, sizeof payload, limbs.at, limbs.size, 14) == KG_ACCEPTED, "a tick");
    expect(kg_limb_draws(limbs.at, limbs.size, 0) == (uint64_t)(256 + 0x11) << 32, "the picture");
    expect(kg_tick(payload, sizeof payload, limbs.at, limbs.size, 14) == KG_ACCEPTED, "a second tick");
    expect(kg_limb_draws(limbs.at, limbs.size, 0) == 0 && kg_limb_draws(limbs.at, limbs.size, 16) == KG_ANIMATION_WRONG, "a stopped limb");
    give_back(limbs);
}

/* One call on 16 limbs, of which limb 0 has the bytes given and the others are idle with odd bytes: limb 0 must have the bytes wanted, and
 * the others must stay. The record names limb 0 alone; `stream` is the command stream's first byte, which the tick reads. */
static void limb_becomes(int tick, const uint8_t *given, const uint8_t *wanted, uint8_t start, uint8_t stream, const char *what)
{
    static const uint8_t idle[KG_LIMB_SIZE] = { 0, 9, 5, 3, 0x66, 200, 0xEE, 0xDD, 1, 2, 3, 4, 5, 6, 7, 8 };
    const uint8_t payload[] = { 8, 0, 0x00, 0x80, start, start, 1, 0, stream, 0x12 };
    struct lent limbs = lend(KG_LIMBS_SIZE, 0);
    size_t i;
    for (i = 0; i < KG_LIMBS; i++) memcpy(limbs.at + KG_LIMB_SIZE * i, i == 0 ? given : idle, KG_LIMB_SIZE);
    if (tick) expect(kg_tick(payload, sizeof payload, limbs.at, limbs.size, 14) == KG_ACCEPTED, what);
    else expect(kg_start(payload, sizeof payload, limbs.at, limbs.size, 0, 1, 14, 0, KG_WEST) == (uint64_t)1 << 32, what);
    expect(memcmp(limbs.at, wanted, KG_LIMB_SIZE) == 0, what);
    for (i = 1; i < KG_LIMBS; i++) expect(memcmp(limbs.at + KG_LIMB_SIZE * i, idle, KG_LIMB_SIZE) == 0, "the other limbs");
    give_back(limbs);
}

/* What docs/LAYOUTS.md says of a limb's bytes. */
static void limb_bytes(void)
{
    static const uint8_t odd[KG_LIMB_SIZE] = { 7, 9, 5, 3, 0x66, 2, 0xEE, 0xDD, 0, 0, 0, 0, 0, 0, 0, 0 };
    static const uint8_t started[KG_LIMB_SIZE] = { 1, 9, 0, 0, 0, 2, 0xEE, 0xDD, 0, 0, 0, 0, 0, 0, 0, 0 };
    static const uint8_t idled[KG_LIMB_SIZE] = { 0, 9, 0, 0, 0, 0, 0xEE, 0xDD, 0, 0, 0, 0, 0, 0, 0, 0 };
    static const uint8_t pictured[KG_LIMB_SIZE] = { 7, 9, 5, 1, 0x11, 2, 0xEE, 0xDD, 0, 0, 0, 0, 1, 0, 0, 0 };
    static const uint8_t stopped[KG_LIMB_SIZE] = { 7, 1, 5, 3, 0x66, 2, 0xEE, 0xDD, 0, 0, 0, 0, 1, 0, 0, 0 };
    static const uint8_t passed_over[KG_LIMB_SIZE] = { 7, 9, 5, 3, 0x66, 2, 0xEE, 0xDD, 0, 0, 0, 0, 1, 0, 0, 0 };
    limb_becomes(0, odd, started, 0, 0x11, "a start zeroes the picture byte, and keeps the stopped and the unused ones");
    limb_becomes(0, odd, idled, 0xFF, 0x11, "idling zeroes all but the stopped byte and the unused ones");
    limb_becomes(1, odd, pictured, 0, 0x11, "a tick that reads a picture leaves active, stopped and no-loop");
    limb_becomes(1, odd, stopped, 0, 0x79, "a tick that reads 79 writes the stopped byte alone");
    limb_becomes(1, odd, passed_over, 0, 0x71, "a tick that reads 71 moves the place alone");
}

/* Asks about 16 limbs, of which limb k is active with this window and place, and draws picture 66; the others are idle, and what else they have
 * would be wrong in an active limb. A wrong limb refuses the question about another one too. */
static void limb_judged(uint32_t k, uint8_t length, uint32_t start, uint32_t place, uint32_t number, const char *what)
{
    static const uint8_t idle[KG_LIMB_SIZE] = { 0, 0, 5, 3, 0x44, 200, 0xEE, 0xDD, 1, 2, 3, 4, 5, 6, 7, 8 };
    struct lent limbs = lend(KG_LIMBS_SIZE, 0);
    uint8_t *limb = limbs.at + KG_LIMB_SIZE * k;
    size_t i;
    for (i = 0; i < KG_LIMBS; i++) memcpy(limbs.at + KG_LIMB_SIZE * i, idle, KG_LIMB_SIZE);
    limb[0] = 7;
    limb[4] = 0x66;
    limb[5] = length;
    for (i = 0; i < 4; i++) {
        limb[8 + i] = (uint8_t)(start >> 8 * i);
        limb[12 + i] = (uint8_t)(place >> 8 * i);
    }
    expect(kg_limb_draws(limbs.at, limbs.size, k) == (number == KG_ACCEPTED ? (uint64_t)(256 + 0x66) << 32 : number), what);
    expect(kg_limb_draws(limbs.at, limbs.size, (k + 1) % KG_LIMBS) == number, what);
    expect(kg_limb_draws(limbs.at, limbs.size, KG_LIMBS) == KG_ANIMATION_WRONG, "limb 16");
    expect(kg_limb_draws(limbs.at, limbs.size - 1, KG_LIMBS) == KG_BUFFER_SHORT, "4 goes before 15");
    give_back(limbs);
}

/* What docs/LAYOUTS.md says of a limb's length and place, as the question whether a limb draws judges them: it is lent no stream, so a window may
 * end anywhere, past 2^32 too. */
static void limb_windows(void)
{
    uint32_t k;
    for (k = 0; k < KG_LIMBS; k++) {
        limb_judged(k, 1, 0, 0, KG_ACCEPTED, "a window of one byte");
        limb_judged(k, 128, 5, 132, KG_ACCEPTED, "the last place of a window of 128 bytes");
        limb_judged(k, 128, 0xFFFFFFFFu, 0xFFFFFFFFu, KG_ACCEPTED, "the last place that there is");
        limb_judged(k, 0, 5, 5, KG_ANIMATION_WRONG, "a window of no bytes");
        limb_judged(k, 129, 5, 5, KG_ANIMATION_WRONG, "a window of 129 bytes");
        limb_judged(k, 255, 5, 5, KG_ANIMATION_WRONG, "a window of 255 bytes");
        limb_judged(k, 2, 5, 4, KG_ANIMATION_WRONG, "a place below the start");
        limb_judged(k, 2, 5, 7, KG_ANIMATION_WRONG, "a place at start + length");
        limb_judged(k, 2, 5, 0x80000005u, KG_ANIMATION_WRONG, "a place far past the window");
        limb_judged(k, 16, 0xFFFFFFF8u, 3, KG_ANIMATION_WRONG, "a place that is in its window modulo 2^32 alone");
    }
}

int main(int argc, char **argv)
{
    struct lent room = given_room("calls", argc, argv);
    record_and_objects(room);
    load_and_write(room);
    steps(room);
    points(room);
    listings(room);
    list_of_steps(room);
    casts(room);
    comparisons(room);
    costume();
    limb_bytes();
    limb_windows();
    return passed(room);
}
