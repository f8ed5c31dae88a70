/* Measures how much stack each call takes in a room made to go deep (deep.h), with an empty and with a full history, and holds it against
 * the figures of include/kildegrom.h. kg_compare is given two such rooms, which differ in every strip; kg_cast the most actors, with the
 * largest pictures, in the order that has most to be changed. It also asks for the most objects that a room may have, and for one more. */
#define _POSIX_C_SOURCE 200809L
#include "deep.h"
#include "kildegrom.h"
#include "stack.h"

#include <stdio.h>

static uint8_t record[KG_RECORD_SIZE], header[KG_HEADER_SIZE], session[KG_SESSION_SIZE], pixels[KG_MAX_PIXELS], masks[KG_MAX_MASKS];
static uint8_t flags[KG_MAX_OBJECTS], picture[KG_MAX_PICTURE_WIDTH * KG_MAX_PICTURE_HEIGHT], limbs[KG_LIMBS_SIZE], out[2 * KG_MAX_PIXELS];
static uint8_t other[sizeof deep], list[DEEP_WIDTH / 8 * KG_DIFFERENCE_SIZE]; /* for kg_compare: another deep room, a list of its strips */
static uint8_t rows[KG_MAX_ROWS]; /* for kg_list: exactly what the most objects need */
static size_t other_size;
static struct kg_actor cast[KG_MAX_CAST];
static uint64_t answer;

/* A costume of one record: all 16 limbs get the window of two bytes that starts at stream index 0. */
static uint8_t payload[8 + 16 * 3 + 2];
enum { COMMAND = sizeof payload - 2 + 6 };

#define LENT deep, deep_size, session, sizeof session, pixels, sizeof pixels, masks, sizeof masks

static void ask_record(void) { answer = kg_record(deep, deep_size, record, sizeof record); }
static void ask_load(void) { answer = kg_load(LENT); }
static void ask_draw_last(void) { answer = kg_draw_last(LENT, 1, 1); }
static void ask_draw_at(void) { answer = kg_draw_at(LENT, 1, 2, 1, 3); }
static void ask_hide(void) { answer = kg_hide(LENT, 1); }
static void ask_take_back(void) { answer = kg_take_back(LENT); }
static void ask_object_at(void) { answer = kg_object_at(deep, deep_size, session, sizeof session, flags, sizeof flags, 40, 100); }
static void ask_list(void) { answer = kg_list(deep, deep_size, record, sizeof record, rows, sizeof rows); }
static void ask_list_short(void) { answer = kg_list(deep, deep_size, record, sizeof record, rows, sizeof rows - 1); }
static void ask_header(void) { answer = kg_header(deep, deep_size, header, sizeof header, KG_MAX_OBJECTS); }
static void ask_name(void) { answer = kg_name(deep, deep_size, KG_MAX_OBJECTS) == 0; }
static void ask_name_number(void) { answer = kg_name_number(deep, deep_size, KG_MAX_OBJECTS); }
static void ask_hidden(void) { answer = kg_number(kg_hidden(masks, sizeof masks, DEEP_WIDTH, DEEP_HEIGHT, 4, 4, 9, 9)); }
static void ask_start(void) { answer = kg_start(payload, sizeof payload, limbs, sizeof limbs, 0, 1, COMMAND, 0, KG_WEST); }
static void ask_tick(void) { answer = kg_tick(payload, sizeof payload, limbs, sizeof limbs, COMMAND); }
static void ask_limb_draws(void) { answer = kg_limb_draws(limbs, sizeof limbs, 15); }
static void ask_smap(void) { answer = kg_write_smap(pixels, sizeof pixels, out, sizeof out, DEEP_WIDTH, DEEP_HEIGHT); }
static void ask_plane(void) { answer = kg_write_plane(masks, sizeof masks, out, sizeof out, DEEP_WIDTH, DEEP_HEIGHT, 4); }

/* The list is exactly long enough, or a byte short. */
static void ask_compare(void) { answer = kg_compare(other, other_size, deep, deep_size, list, sizeof list); }
static void ask_compare_short(void) { answer = kg_compare(other, other_size, deep, deep_size, list, sizeof list - 1); }

static void ask_stamp(void)
{
    answer = kg_stamp(pixels, sizeof pixels, masks, sizeof masks, picture, sizeof picture, DEEP_WIDTH, DEEP_HEIGHT, 4, KG_MAX_PICTURE_WIDTH,
                      KG_MAX_PICTURE_HEIGHT, -9, -9, 4, 255);
}

static void ask_cast_of(size_t pictures_size)
{
    answer = kg_cast(cast, KG_MAX_CAST, pixels, sizeof pixels, masks, sizeof masks, picture, pictures_size, DEEP_WIDTH, DEEP_HEIGHT, 4, 255);
}

/* The pictures are exactly long enough, or a byte short for the last actor alone. */
static void ask_cast(void) { ask_cast_of(sizeof picture); }
static void ask_cast_short(void) { ask_cast_of(sizeof picture - 1); }

struct question {
    const char *call;
    void (*ask)(void);
    size_t figure;
    uint32_t steps, number, value; /* the steps in the history before it; the number that it must answer; 1 where it must have a value */
};

static const struct question questions[] = {
    { "kg_record", ask_record, KG_STACK_RECORD, 0, 0, 0 },
    { "kg_load", ask_load, KG_STACK_LOAD, 64, 0, 0 },
    { "kg_draw_last", ask_draw_last, KG_STACK_DRAW, 0, 0, 0 },
    { "kg_draw_last", ask_draw_last, KG_STACK_DRAW, 63, 0, 0 },
    { "kg_draw_last", ask_draw_last, KG_STACK_DRAW, 64, KG_HISTORY_FULL, 0 },
    { "kg_draw_at", ask_draw_at, KG_STACK_DRAW, 0, 0, 0 },
    { "kg_draw_at", ask_draw_at, KG_STACK_DRAW, 63, 0, 0 },
    { "kg_hide", ask_hide, KG_STACK_DRAW, 0, KG_NO_SUCH_OBJECT, 0 },
    { "kg_hide", ask_hide, KG_STACK_DRAW, 63, 0, 0 },
    { "kg_take_back", ask_take_back, KG_STACK_TAKE_BACK, 0, KG_NOTHING_TO_TAKE_BACK, 0 },
    { "kg_take_back", ask_take_back, KG_STACK_TAKE_BACK, 1, 0, 0 },
    { "kg_take_back", ask_take_back, KG_STACK_TAKE_BACK, 64, 0, 0 },
    { "kg_object_at", ask_object_at, KG_STACK_OBJECT_AT, 0, 0, 1 },
    { "kg_object_at", ask_object_at, KG_STACK_OBJECT_AT, 64, 0, 1 },
    { "kg_list", ask_list, KG_STACK_LIST, 0, 0, 0 },
    { "kg_list", ask_list_short, KG_STACK_LIST, 0, KG_BUFFER_SHORT, 0 },
    { "kg_header", ask_header, KG_STACK_HEADER, 0, 0, 0 },
    { "kg_name", ask_name, KG_STACK_HEADER, 0, 0, 0 },
    { "kg_name_number", ask_name_number, KG_STACK_HEADER, 0, 0, 0 },
    { "kg_hidden", ask_hidden, KG_STACK_ACTOR, 0, 0, 0 },
    { "kg_stamp", ask_stamp, KG_STACK_ACTOR, 0, 0, 0 },
    { "kg_start", ask_start, KG_STACK_COSTUME, 0, 0, 1 },
    { "kg_tick", ask_tick, KG_STACK_COSTUME, 0, 0, 0 },
    { "kg_limb_draws", ask_limb_draws, KG_STACK_COSTUME, 0, 0, 1 },
    { "kg_write_smap", ask_smap, KG_STACK_WRITE, 0, 0, 1 },
    { "kg_write_plane", ask_plane, KG_STACK_WRITE, 0, 0, 1 },
    { "kg_compare", ask_compare, KG_STACK_COMPARE, 0, 0, 1 },
    { "kg_compare", ask_compare_short, KG_STACK_COMPARE, 0, KG_BUFFER_SHORT, 0 },
    { "kg_cast", ask_cast, KG_STACK_ACTOR, 0, 0, 0 },
    { "kg_cast", ask_cast_short, KG_STACK_ACTOR, 0, KG_BUFFER_SHORT, 0 },
};

static void stop(const char *call, const char *what)
{
    fprintf(stderr, "stack: %s: %s\n", call, what);
    exit(1);
}

/* The session before a question. Only object 1 is drawn, and it contains none: so the chain of its containers stays open to its end, and
 * kg_object_at answers 1 by climbing it all. */
static void make_steps(uint32_t steps)
{
    uint32_t i;
    if (kg_load(LENT) != KG_ACCEPTED) stop("kg_load", "the room is refused");
    for (i = 0; i < steps; i++) {
        uint32_t number = i % 4 == 3 ? kg_draw_last(LENT, 1, 1) : kg_draw_at(LENT, 1, 1 + i % 2, i % 5, i % 13);
        if (number != KG_ACCEPTED) stop("kg_draw_at", kg_refusal_text(number));
    }
}

static void make_payload(void)
{
    uint32_t i;
    payload[0] = 8;    /* the record at payload byte 2 */
    payload[2] = payload[3] = 0xFF;
    for (i = 0; i < KG_LIMBS; i++) payload[4 + 3 * i + 2] = 1;
}

/* The actor that is painted last comes first. All have the same picture, of which the last has a row more. */
static void make_cast(void)
{
    uint32_t i;
    for (i = 0; i < KG_MAX_CAST; i++) {
        const struct kg_actor actor = { i, -(int32_t)i, -9, (int32_t)i - 20, KG_MAX_PICTURE_WIDTH, KG_MAX_PICTURE_HEIGHT - 1, 4, 0 };
        cast[i] = actor;
    }
    cast[KG_MAX_CAST - 1].height++;
}

static void measure(const struct question *q)
{
    size_t used;
    make_steps(q->steps);
    make_cast();
    used = stack_used(q->ask);
    printf("stack: %-14s after %2u steps: %5u bytes, figure %5u\n", q->call, (unsigned)q->steps, (unsigned)used, (unsigned)q->figure);
    if (kg_number(answer) != q->number) stop(q->call, kg_refusal_text(kg_number(answer)));
    if ((kg_value(answer) != 0) != q->value) stop(q->call, "it has another value than the one that takes it deepest");
    if (used > q->figure) stop(q->call, "it takes more stack than the header says");
}

/* Whether the rows are those of the deep room: its first objects have images of two states, the others none, and the last row has its own name. */
static int listed_right(void)
{
    const uint8_t *last = kg_row_at(rows, KG_MAX_OBJECTS);
    uint32_t o;
    for (o = 1; o <= KG_MAX_OBJECTS; o++) {
        if (kg_u16(kg_row_at(rows, o) + KG_ROW_STATES) != (o <= IMAGES ? 3u : 0u)) return 0;
    }
    return kg_u16(last + KG_HEADER_ID) == KG_MAX_OBJECTS && kg_u32(last + KG_ROW_NAME_LENGTH) == 1 && deep[kg_u32(last + KG_ROW_NAME_START)] == 'o';
}

int main(void)
{
    size_t i;
    make_deep(KG_MAX_OBJECTS + 1, 0);
    ask_record();
    if (answer != KG_OUT_OF_SIZE) stop("kg_record", "a room with one object too many is taken");
    ask_list();
    if (answer != KG_OUT_OF_SIZE) stop("kg_list", "a room with one object too many is taken");
    make_deep(KG_MAX_OBJECTS, 4);
    memcpy(other, deep, deep_size);
    other_size = deep_size;
    make_deep(KG_MAX_OBJECTS, 0);
    make_payload();
    for (i = 0; i < sizeof questions / sizeof questions[0]; i++) measure(&questions[i]);
    if (!listed_right()) stop("kg_list", "the rows are not those of the room");
    return 0;
}
