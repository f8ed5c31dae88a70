/* Holds what include/kildegrom.h computes by itself against the library: sizes, bounds of the writers, readers of a session, of rows of
 * objects and of a list of differences, directions. */
#include "room.h"

enum { WIDTH = 320, HEIGHT = 144, STRIPS = WIDTH / 8, OBJECTS = 3 };

static uint32_t seed = 1;

static uint32_t picked(uint32_t below)
{
    seed = seed * 1664525u + 1013904223u;
    return (seed >> 16) % below;
}

/* The lent buffers of a session, in the order of every call. */
#define BUFFERS room.at, room.size, session.at, session.size, pixels.at, pixels.size, masks.at, masks.size

/* Surfaces of the computed sizes are enough, and a byte fewer is not. */
static void surfaces(struct lent room)
{
    struct lent session = lend(KG_SESSION_SIZE, 0), pixels = lend(kg_pixels_size(WIDTH, HEIGHT), 1), masks = lend(kg_masks_size(WIDTH, HEIGHT, 1), 2);
    expect(kg_load(BUFFERS) == KG_ACCEPTED, "surfaces of the computed sizes");
    pixels.size--;
    expect(kg_load(BUFFERS) == KG_BUFFER_SHORT, "a byte of pixels less");
    pixels.size++;
    masks.size--;
    expect(kg_load(BUFFERS) == KG_BUFFER_SHORT, "a byte of masks less");
    masks.size++;
    expect(kg_masks_size(WIDTH, HEIGHT, 0) == 0 && kg_pixels_size(KG_MAX_WIDTH, KG_MAX_HEIGHT) == KG_MAX_PIXELS, "the sizes' ends");
    expect(kg_masks_size(KG_MAX_WIDTH, KG_MAX_HEIGHT, KG_MAX_PLANES) == KG_MAX_MASKS, "the largest masks");
    give_back(session);
    give_back(pixels);
    give_back(masks);
}

/* The largest sizes are accepted, and the next ones are not. walk.c has the largest room, stack.c the most objects. */
static void largest(void)
{
    struct lent frame = lend(KG_MAX_PIXELS, 0), masks = lend(KG_MAX_MASKS, 0), out = lend(kg_smap_bound(KG_MAX_WIDTH, KG_MAX_HEIGHT), 0);
    const uint32_t w = KG_MAX_WIDTH, h = KG_MAX_HEIGHT, n = KG_MAX_PLANES, wide = KG_MAX_PICTURE_WIDTH, high = KG_MAX_PICTURE_HEIGHT;
    static struct kg_actor cast[KG_MAX_CAST + 1];
#define HIDDEN(w, h, n) kg_number(kg_hidden(masks.at, masks.size, w, h, n, 1, 0, 0))
#define STAMP(wide, high) kg_stamp(frame.at, frame.size, masks.at, masks.size, frame.at, 0, w, h, n, wide, high, 0, 0, 0, 255)
#define CAST(count) kg_cast(cast, count, frame.at, frame.size, masks.at, masks.size, frame.at, 0, w, h, n, 255)
    expect(HIDDEN(w, h, n) == KG_ACCEPTED && HIDDEN(w, h, n + 1) == KG_OUT_OF_SIZE, "the planes");
    expect(HIDDEN(w + 8, h, 0) == KG_OUT_OF_SIZE && HIDDEN(w, h + 1, 0) == KG_OUT_OF_SIZE, "the room's size");
    expect(STAMP(wide, high) == KG_BUFFER_SHORT && STAMP(wide + 1, high) == KG_OUT_OF_SIZE && STAMP(wide, high + 1) == KG_OUT_OF_SIZE, "a picture's size");
    expect(CAST(KG_MAX_CAST) == KG_OUT_OF_SIZE && CAST(KG_MAX_CAST + 1) == KG_CAST_TOO_LARGE, "a cast, of pictures without a size");
    expect(kg_number(kg_write_smap(frame.at, frame.size, out.at, out.size, w, h)) == KG_ACCEPTED, "the largest background");
    expect(kg_number(kg_write_plane(masks.at, masks.size, out.at, out.size, w, h, n)) == KG_ACCEPTED, "the last plane");
    expect(kg_number(kg_write_plane(masks.at, masks.size, out.at, out.size, w, h, n + 1)) == KG_OUT_OF_SIZE, "the plane after the last");
#undef HIDDEN
#undef STAMP
#undef CAST
    give_back(frame);
    give_back(masks);
    give_back(out);
}

/* What a writer writes of the rows, with a target of exactly its bound. */
static size_t written(int plane, struct lent rows, uint32_t w, uint32_t h)
{
    struct lent out = lend(plane ? kg_plane_bound(w, h) : kg_smap_bound(w, h), 0x5A);
    uint64_t answer = plane ? kg_write_plane(rows.at, rows.size, out.at, out.size, w, h, 1) : kg_write_smap(rows.at, rows.size, out.at, out.size, w, h);
    expect(kg_number(answer) == KG_ACCEPTED && kg_value(answer) <= out.size, "a block is longer than its bound");
    give_back(out);
    return kg_value(answer);
}

/* Every row of `size` bytes over the values, which are `base` in number: the longest block has the bound's length, so the bound is exact. */
static void every_row(int plane, uint32_t h, uint32_t size, const uint8_t *values, uint32_t base)
{
    struct lent rows = lend(size, 0);
    size_t longest = 0, length;
    uint32_t count = 1, i, k, digits;
    for (k = 0; k < size; k++) count *= base;
    for (i = 0; i < count; i++) {
        for (k = 0, digits = i; k < size; k++, digits /= base) rows.at[k] = values[digits % base];
        length = written(plane, rows, 8, h);
        longest = length > longest ? length : longest;
    }
    expect(longest == (plane ? kg_plane_bound(8, h) : kg_smap_bound(8, h)), "the longest block of all rows isn't as long as its bound");
    give_back(rows);
}

/* The rows that need most: pixels that are never reached by a step; a literal of one mask row, then a run of two, and so on. */
static void worst_rows(uint32_t w, uint32_t h)
{
    struct lent pixels = lend(kg_pixels_size(w, h), 0), masks = lend(kg_masks_size(w, h, 1), 0);
    size_t i;
    for (i = 0; i < pixels.size; i++) pixels.at[i] = i % 2 == 0 ? 0 : 128;
    for (i = 0; i < masks.size; i++) masks.at[i] = i / (w / 8) % 3 == 0 ? (uint8_t)(1 + i / (w / 8) % 2) : 3;
    expect(written(0, pixels, w, h) == kg_smap_bound(w, h), "the worst background is as long as its bound");
    expect(written(1, masks, w, h) == kg_plane_bound(w, h), "the worst plane is as long as its bound");
    give_back(pixels);
    give_back(masks);
}

static void some_rows(uint32_t w, uint32_t h, uint32_t values)
{
    struct lent rows = lend(kg_pixels_size(w, h), 0);
    size_t i;
    for (i = 0; i < rows.size; i++) rows.at[i] = (uint8_t)(picked(values) * 77);
    written(0, rows, w, h);
    written(1, rows, w, h);
    give_back(rows);
}

static void bounds(void)
{
    static const uint8_t mask_rows[] = { 1, 2, 3 }, colours[] = { 0, 1, 2, 128 };
    uint32_t h, i;
    for (h = 1; h <= 9; h++) every_row(1, h, h, mask_rows, 3);
    every_row(0, 1, 8, colours, 4);
    for (h = 1; h <= KG_MAX_HEIGHT; h++) worst_rows(16, h);
    worst_rows(KG_MAX_WIDTH, KG_MAX_HEIGHT);
    for (i = 0; i < 600; i++) some_rows(8 + 8 * picked(4), 1 + picked(KG_MAX_HEIGHT), 2 + picked(20));
}

static int is_step(struct kg_step s, uint32_t kind, uint32_t object, uint32_t state, uint32_t a, uint32_t b)
{
    return s.kind == kind && s.object == object && s.state == state && s.a == a && s.b == b;
}

static int is_position(struct kg_position p, uint32_t known, uint32_t a, uint32_t b)
{
    return p.known == known && p.a == a && p.b == b;
}

/* The readers after known steps. */
static void read_steps(struct lent room)
{
    struct lent session = lend(KG_SESSION_SIZE, 0), pixels = lend(KG_MAX_PIXELS, 1), masks = lend(KG_MAX_MASKS, 2);
    expect(kg_load(BUFFERS) == KG_ACCEPTED && all(session.at, session.size, 0), "the emptied session");
    expect(kg_session_steps(session.at) == 0 && kg_session_shown(session.at) == 0, "an empty session");
    expect(is_step(kg_session_step(session.at, 0), KG_STEP_NONE, 0, 0, 0, 0) && kg_session_entry(session.at, 0).object == 0, "no step, no entry");
    expect(kg_draw_last(BUFFERS, 1, 2) == KG_ACCEPTED && kg_draw_at(BUFFERS, 2, 2, 3, 4) == KG_ACCEPTED, "two draws");
    expect(kg_draw_at(BUFFERS, 2, 1, 0, 5) == KG_ACCEPTED && kg_draw_last(BUFFERS, 2, 1) == KG_ACCEPTED, "two more");
    expect(kg_hide(BUFFERS, 1) == KG_ACCEPTED, "a hide");
    expect(kg_session_steps(session.at) == 5 && kg_session_shown(session.at) == 1, "the counts");
    expect(is_step(kg_session_step(session.at, 0), KG_STEP_DRAW_LAST, 1, 2, 0, 0), "a draw at the last place");
    expect(is_step(kg_session_step(session.at, 1), KG_STEP_DRAW_AT, 2, 2, 3, 4), "a draw at a strip position");
    expect(is_step(kg_session_step(session.at, 4), KG_STEP_HIDE, 1, 0, 0, 0), "a hide as a step");
    expect(is_step(kg_session_step(session.at, 5), KG_STEP_NONE, 0, 0, 0, 0), "a step past the count");
    expect(kg_session_entry(session.at, 0).object == 2 && kg_session_entry(session.at, 0).state == 1, "the entry");
    expect(kg_session_entry(session.at, 1).object == 0, "an entry past the count");
    expect(kg_session_state(session.at, 1) == 0 && kg_session_state(session.at, 2) == 1 && kg_session_state(session.at, 0) == 0, "the states");
    expect(is_position(kg_session_position(session.at, 2), 1, 0, 5) && is_position(kg_session_position(session.at, 1), 0, 0, 0), "the positions");
    expect(kg_take_back(BUFFERS) == KG_ACCEPTED && kg_session_state(session.at, 1) == 2 && kg_session_shown(session.at) == 2, "a hide taken back");
    expect(kg_session_entry(session.at, 0).object == 1 && kg_session_entry(session.at, 1).object == 2, "the entries' order");
    expect(kg_take_back(BUFFERS) == KG_ACCEPTED && kg_take_back(BUFFERS) == KG_ACCEPTED, "two draws taken back");
    expect(is_position(kg_session_position(session.at, 2), 1, 3, 4) && kg_session_state(session.at, 2) == 2, "a position taken back");
    give_back(session);
    give_back(pixels);
    give_back(masks);
}

/* The library hides an object exactly where kg_session_state says that it is shown, and finds its box at kg_session_position. */
static void held_against_the_calls(struct lent room, struct lent session, struct lent pixels, struct lent masks, uint32_t object)
{
    struct kg_position p = kg_session_position(session.at, object);
    struct lent flags = lend(OBJECTS, 1);
    const uint64_t object_1 = (uint64_t)1 << 32;
    uint32_t shown = kg_session_state(session.at, object) != 0, steps = kg_session_steps(session.at);
    flags.at[object - 1] = 0;
    if (p.known && object == 1) {
        uint64_t found = kg_object_at(room.at, room.size, session.at, session.size, flags.at, flags.size, 8 * p.a, 8 * p.b);
        expect(found == object_1, "a box at its position");
    }
    if (steps < KG_MAX_HISTORY) {
        expect(kg_hide(BUFFERS, object) == (shown ? (uint32_t)KG_ACCEPTED : (uint32_t)KG_NO_SUCH_OBJECT), "a hide against the shown state");
        expect(!shown || (kg_session_state(session.at, object) == 0 && kg_take_back(BUFFERS) == KG_ACCEPTED), "the hide taken back");
    }
    expect(kg_session_steps(session.at) == steps && (kg_session_state(session.at, object) != 0) == shown, "the session as it was");
    give_back(flags);
}

/* A list of calls up to a full history, the readers held against the library after each. */
static void read_a_list(struct lent room)
{
    struct lent session = lend(KG_SESSION_SIZE, 0), pixels = lend(KG_MAX_PIXELS, 1), masks = lend(KG_MAX_MASKS, 2);
    uint32_t steps = 0, number, calls = 0, object, back;
    expect(kg_load(BUFFERS) == KG_ACCEPTED, "the load before the list");
    while (steps < KG_MAX_HISTORY && calls < 2000) {
        back = picked(8) == 0;
        object = 1 + picked(2);
        number = back ? kg_take_back(BUFFERS) : picked(4) == 0 ? kg_hide(BUFFERS, object)
                 : picked(2) == 0 ? kg_draw_last(BUFFERS, object, 1 + picked(2)) : kg_draw_at(BUFFERS, object, 1 + picked(2), picked(41), picked(12));
        steps += number != KG_ACCEPTED ? 0 : back ? UINT32_MAX : 1;
        expect(kg_session_steps(session.at) == steps, "the steps of a list");
        for (object = 1; object <= OBJECTS; object++) held_against_the_calls(room, session, pixels, masks, object);
        calls++;
    }
    expect(steps == KG_MAX_HISTORY && kg_draw_last(BUFFERS, 1, 1) == KG_HISTORY_FULL, "a full history");
    give_back(session);
    give_back(pixels);
    give_back(masks);
}

/* Any bytes: the readers stay in the session (the sanitizer sees its ends), and a count above 64 is none, as the library refuses it with 9. */
static void read_any_bytes(struct lent room)
{
    struct lent pixels = lend(KG_MAX_PIXELS, 1), masks = lend(KG_MAX_MASKS, 2), session;
    uint8_t *bytes = (uint8_t *)malloc(KG_SESSION_SIZE);
    uint32_t i, k, round;
    expect(bytes != NULL, "out of memory");
    session.all = session.at = bytes;
    session.size = KG_SESSION_SIZE;
    for (round = 0; round < 200; round++) {
        for (i = 0; i < KG_SESSION_SIZE; i++) bytes[i] = (uint8_t)picked(256);
        for (k = 0; k < 2; k++) bytes[k] = (uint8_t)(round % 2 == 0 ? 60 + picked(8) : bytes[k]);
        expect(kg_session_steps(bytes) == (bytes[0] <= 64 ? bytes[0] : 0u) && kg_session_shown(bytes) == (bytes[1] <= 64 ? bytes[1] : 0u), "any counts");
        for (i = 0; i < 260; i++) {
            struct kg_step step = kg_session_step(bytes, i);
            expect((step.kind == KG_STEP_NONE) == (i >= kg_session_steps(bytes)) && step.kind <= KG_STEP_NONE, "any step");
            expect(step.kind != KG_STEP_HIDE || (step.state == 0 && step.a == 0 && step.b == 0), "what a hide doesn't have");
            expect(step.kind != KG_STEP_DRAW_LAST || (step.a == 0 && step.b == 0), "what a draw at the last place doesn't have");
            expect(i < kg_session_shown(bytes) || kg_session_entry(bytes, i).object == 0, "any entry");
            expect(kg_session_state(bytes, i) <= 255 && kg_session_position(bytes, i).known <= 1, "any object");
        }
        expect(kg_session_step(bytes, UINT32_MAX).kind == KG_STEP_NONE && kg_session_entry(bytes, UINT32_MAX).object == 0, "the last index");
        expect((bytes[0] <= 64 && bytes[1] <= 64) || kg_take_back(BUFFERS) == KG_OTHER_SESSION, "a count above 64");
    }
    free(bytes);
    give_back(pixels);
    give_back(masks);
}

static int is_difference(struct kg_difference d, uint32_t strip, uint32_t pixels, uint32_t planes)
{
    return d.strip == strip && d.pixels == pixels && d.planes == planes;
}

/* The widest rooms with all pixels and planes different: the list has KG_MAX_DIFFERENCES bytes, and a byte fewer is too short. */
static void differences(void)
{
    const uint32_t w = KG_MAX_WIDTH, h = KG_MAX_HEIGHT, n = KG_MAX_PLANES;
    struct lent pixels = lend(KG_MAX_PIXELS, 1), masks = lend(KG_MAX_MASKS, 0xFF), list = lend(KG_MAX_DIFFERENCES, 0x77), a, b;
    uint32_t s;
    a = room_of(pixels, masks, w, h, n);
    memset(pixels.at, 2, pixels.size);
    b = room_of(pixels, masks, w, h, 0);
    expect(kg_compare(a.at, a.size, b.at, b.size, list.at, list.size - 1) == KG_BUFFER_SHORT, "a byte of the list less");
    expect(kg_compare(a.at, a.size, b.at, b.size, list.at, list.size) == (uint64_t)(w / 8) << 32, "a list of the largest size");
    for (s = 0; s < w / 8; s++) expect(is_difference(kg_difference_at(list.at, s), s, 8 * h, 15), "a place of the widest rooms");
    give_back(pixels);
    give_back(masks);
    give_back(list);
    give_back(a);
    give_back(b);
}

/* The fields stand where docs/LAYOUTS.md has them; the last three bytes of a place are none. */
static void read_differences(void)
{
    static const uint8_t list[24] = { 0, 0, 0, 0, 0, 0, 0, 0, 12, 0, 31, 0, 5, 0, 0, 0, 0x34, 0x12, 0x78, 0x56, 0x9A, 0xFF, 0xFF, 0xFF };
    expect(is_difference(kg_difference_at(list, 0), 0, 0, 0) && is_difference(kg_difference_at(list, 1), 12, 31, 5), "two places");
    expect(is_difference(kg_difference_at(list, 2), 0x1234, 0x5678, 0x9A), "little-endian fields, and no more");
}

/* Little-endian numbers, and rows of 32 bytes counted from object 1. */
static void read_rows(void)
{
    static uint8_t rows[KG_MAX_ROWS];
    static const uint8_t numbers[6] = { 0x78, 0x56, 0x34, 0x92, 0xFF, 0xFF };
    uint32_t object, state, bits;
    expect(kg_u32(numbers) == 0x92345678u && kg_u32(numbers + 2) == 0xFFFF9234u && kg_u16(numbers) == 0x5678, "little-endian numbers");
    for (object = 1; object <= KG_MAX_OBJECTS; object++) expect(kg_row_at(rows, object) == rows + 32 * (object - 1), "the row of an object");
    expect(kg_row_at(rows, KG_MAX_OBJECTS) + KG_ROW_SIZE == rows + sizeof rows, "the rows of the most objects are KG_MAX_ROWS bytes");
    for (bits = 0; bits < 0x10000; bits += bits < 0x400 ? 1 : 0x1FF) {
        put_number(rows + 24, bits);
        for (state = 0; state <= 40; state++) {
            const uint32_t wanted = state >= 1 && state <= 9 ? bits >> (state - 1) & 1 : 0;
            expect(kg_row_has_state(rows, state) == wanted, "a state's bit, and no bit for another number");
        }
        expect(kg_row_has_state(rows, 0x80000001u) == 0 && kg_row_has_state(rows, UINT32_MAX) == 0, "the largest numbers are no states");
    }
}

/* The cellar's rows read by the fields' places: those that docs/LAYOUTS.md has. The library draws a state exactly where its row has it. */
static void rows_against_the_calls(struct lent room)
{
    struct lent session = lend(KG_SESSION_SIZE, 0), pixels = lend(KG_MAX_PIXELS, 1), masks = lend(KG_MAX_MASKS, 2);
    struct lent record = lend(KG_RECORD_SIZE, 3), rows = lend(KG_MAX_ROWS, 4);
    uint32_t object, state;
    expect(kg_list(room.at, room.size, record.at, record.size, rows.at, rows.size) == KG_ACCEPTED, "the listing");
    expect(kg_u16(record.at + KG_RECORD_OBJECTS) == OBJECTS && all(rows.at + OBJECTS * KG_ROW_SIZE, rows.size - OBJECTS * KG_ROW_SIZE, 4), "its rows");
    for (object = 1; object <= OBJECTS; object++) {
        const uint8_t *row = kg_row_at(rows.at, object);
        const uint64_t name = kg_name(room.at, room.size, object);
        expect(kg_u16(row + KG_ROW_HEADER + KG_HEADER_ID) == 100 + object, "the ids");
        expect(kg_u32(row + KG_ROW_NAME_START) == kg_name_start(name) && kg_u32(row + KG_ROW_NAME_LENGTH) == kg_name_length(name), "the names");
        for (state = 0; state <= 20; state++) {
            expect(kg_load(BUFFERS) == KG_ACCEPTED, "the load before a draw");
            expect((kg_draw_last(BUFFERS, object, state) != KG_NO_SUCH_OBJECT) == (kg_row_has_state(row, state) != 0), "a draw against the row");
        }
    }
    give_back(session);
    give_back(pixels);
    give_back(masks);
    give_back(record);
    give_back(rows);
}

/* CDHD's E 0, W 1, N 2, S 3 as kg_start's directions; other bytes stay, and the start refuses them. */
static void directions(void)
{
    static const uint8_t payload[8] = { 0 };   /* four records, none of them defined */
    struct lent limbs = lend(KG_LIMBS_SIZE, 0);
    uint32_t byte;
    expect(kg_costume_direction(0) == KG_EAST && kg_costume_direction(1) == KG_WEST, "east and west");
    expect(kg_costume_direction(2) == KG_NORTH && kg_costume_direction(3) == KG_SOUTH, "north and south");
    for (byte = 0; byte < 256; byte++) {
        uint64_t answer = kg_start(payload, sizeof payload, limbs.at, limbs.size, 0, 4, 6, 0, kg_costume_direction(byte));
        expect(kg_number(answer) == (byte < 4 ? (uint32_t)KG_ACCEPTED : (uint32_t)KG_ANIMATION_WRONG), "any direction byte");
    }
    give_back(limbs);
}

int main(int argc, char **argv)
{
    struct lent room = given_room("inlines", argc, argv);
    surfaces(room);
    largest();
    bounds();
    read_steps(room);
    read_a_list(room);
    read_any_bytes(room);
    differences();
    read_differences();
    read_rows();
    rows_against_the_calls(room);
    directions();
    return passed(room);
}
