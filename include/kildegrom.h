/** @file kildegrom.h
 * Kildegrom reads, paints and writes SCUMM v5 room blocks. Every call is proved to do what docs/PROOFS.md names, for every input.
 *
 * A buffer is a pointer and its length. No call keeps a pointer, allocates, or touches bytes outside what it is lent; buffers of one
 * call must not overlap where one of them is written. A pointer may be anything where its length is 0, but NULL is best avoided.
 *
 * A call answers a number: 0 (KG_ACCEPTED), or the refusal's number, and then no lent byte has changed. A call with a value as well
 * answers a uint64_t: take it apart with kg_number and kg_value. Bytes past what a call needs stay as they are. */
#ifndef KILDEGROM_H
#define KILDEGROM_H

#include <stddef.h>
#include <stdint.h>

#ifdef __cplusplus
extern "C" {
#endif

/* ---- Version ---- */

#define KG_VERSION_MAJOR 0 /**< goes up where a host must change */
#define KG_VERSION_MINOR 1 /**< goes up where something is added */
#define KG_VERSION_PATCH 0 /**< goes up where something is corrected */
/** The version as a number that grows: 100 is 0.1.0. */
#define KG_VERSION (10000 * KG_VERSION_MAJOR + 100 * KG_VERSION_MINOR + KG_VERSION_PATCH)
/** The version as a text. The Makefile reads it here. */
#define KG_VERSION_TEXT "0.1.0"

/* ---- Answers ---- */

/** What a call answers: the name of enum kg_refusal, its number, and a short text for it. A new number is one line, the lowest first. */
#define KG_NUMBERS(X) \
    X(KG_ACCEPTED, 0, "accepted") \
    X(KG_NOT_A_ROOM, 1, "not one ROOM block filling the slice, or a block of it is wrong") \
    X(KG_BLOCK_MISSING, 2, "a needed block is missing or too short") \
    X(KG_OUT_OF_SIZE, 3, "width, height, planes, object count or a picture's size is out of range") \
    X(KG_BUFFER_SHORT, 4, "a lent buffer is too short") \
    X(KG_TABLE_WRONG, 5, "a strip table doesn't fit its block, or an offset is wrong") \
    X(KG_CODE_UNKNOWN, 6, "unknown strip code") \
    X(KG_BYTES_RUN_OUT, 7, "strip bytes run out") \
    X(KG_PAST_THE_STRIP, 8, "an operation passes the end of the strip") \
    X(KG_OTHER_SESSION, 9, "the session isn't one that this room gives") \
    X(KG_HISTORY_FULL, 10, "the history holds 64 steps") \
    X(KG_NO_SUCH_OBJECT, 11, "no such object, image state or shown entry") \
    X(KG_PLACE_NOT_ALLOWED, 12, "the place isn't allowed") \
    X(KG_NOTHING_TO_TAKE_BACK, 13, "nothing to take back") \
    X(KG_POINT_OUTSIDE, 14, "the point is outside the room") \
    X(KG_ANIMATION_WRONG, 15, "an animation number, record, window or limb state is wrong") \
    X(KG_SIZES_DIFFER, 16, "the two rooms differ in width or height") \
    X(KG_CAST_TOO_LARGE, 18, "a cast has more than 32 actors")

/** @cond */
#define KG_NUMBER_NAME(name, number, text) name = (number),
#define KG_NUMBER_TEXT(name, number, text) case name: return text;

enum kg_refusal { KG_NUMBERS(KG_NUMBER_NAME) };
/** @endcond */

/** The text of a number. */
static inline const char *kg_refusal_text(uint32_t number)
{
    switch (number) {
        KG_NUMBERS(KG_NUMBER_TEXT)
        default: return "unknown number";
    }
}

/** The number of a uint64_t answer (not of kg_name's). */
static inline uint32_t kg_number(uint64_t answer) { return (uint32_t)(answer & 0xFFFFFFFFu); }
/** The value of a uint64_t answer (not of kg_name's); 0 where the call is refused. */
static inline uint32_t kg_value(uint64_t answer) { return (uint32_t)(answer >> 32); }

/** The first byte of the name that kg_name answers, counted in the room. */
static inline uint32_t kg_name_start(uint64_t answer) { return (uint32_t)(answer & 0xFFFFFFFFu); }
/** The length of the name that kg_name answers. */
static inline uint32_t kg_name_length(uint64_t answer) { return (uint32_t)(answer >> 32); }

/* ---- Sizes ---- */

/** The sizes in bytes of what is lent (docs/LAYOUTS.md), and how many limbs there are. */
enum {
    KG_RECORD_SIZE = 16,
    KG_HEADER_SIZE = 16,
    KG_SESSION_SIZE = 450,
    KG_LIMBS = 16,
    KG_LIMB_SIZE = 16,
    KG_LIMBS_SIZE = 256,
    KG_ROW_SIZE = 32,       /**< one object's row of kg_list */
    KG_DIFFERENCE_SIZE = 8, /**< one place of kg_compare's list */
    KG_ACTOR_SIZE = 32      /**< one struct kg_actor of kg_cast's list */
};

/** The largest sizes that a call takes; what is larger is refused with 1 (a room), 3, 10 (the history), or 18 (a cast). */
enum {
    KG_MAX_ROOM = 1048576,       /**< bytes of a room block */
    KG_MAX_WIDTH = 1024,         /**< pixels across a room, a multiple of 8 from 8 on */
    KG_MAX_HEIGHT = 200,         /**< rows of a room, from 1 on */
    KG_MAX_PLANES = 4,           /**< mask planes of a room, from 0 on */
    KG_MAX_OBJECTS = 128,        /**< objects of a room, from 0 on */
    KG_MAX_HISTORY = 64,         /**< steps of a session; so its shown list has at most 64 entries too */
    KG_MAX_PICTURE_WIDTH = 128,  /**< pixels across an actor's picture, from 1 on */
    KG_MAX_PICTURE_HEIGHT = 200, /**< rows of an actor's picture, from 1 on */
    KG_MAX_CAST = 32,            /**< actors of a cast, from 0 on */
    KG_MAX_PIXELS = KG_MAX_WIDTH * KG_MAX_HEIGHT,                      /**< bytes of pixels that are enough for every room */
    KG_MAX_MASKS = KG_MAX_PLANES * (KG_MAX_WIDTH / 8) * KG_MAX_HEIGHT, /**< bytes of masks that are enough for every room */
    KG_MAX_ROWS = KG_MAX_OBJECTS * KG_ROW_SIZE,                        /**< bytes of rows that are enough for every listing */
    KG_MAX_DIFFERENCES = (KG_MAX_WIDTH / 8) * KG_DIFFERENCE_SIZE       /**< bytes of a list that is enough for every comparison */
};

/** The bytes of pixels, or of a frame, of a room of w by h; pixel (x, y) is byte y * w + x. For sizes that a record gives, as below. */
static inline size_t kg_pixels_size(uint32_t w, uint32_t h) { return (size_t)w * h; }

/** The bytes of the n mask planes of a room of w by h. 0 planes need 0 bytes. */
static inline size_t kg_masks_size(uint32_t w, uint32_t h, uint32_t n) { return (size_t)n * (w / 8) * h; }

/** A target of this length is enough for kg_write_smap, whatever the rows. Each of the w / 8 strips takes 4 bytes of the table, its code and
 * first colour, and at most 10 bits for each of its 8h - 1 further pixels: 4 + 2 + (10h - 1) bytes. Rows that need it all exist. */
static inline size_t kg_smap_bound(uint32_t w, uint32_t h) { return 8 + (size_t)(w / 8) * (10 * (size_t)h + 5); }

/** A target of this length is enough for kg_write_plane, whatever the rows. Each of the w / 8 strips takes 2 bytes of the table, and at most
 * a byte for each row (a run takes 2 bytes for 2 rows or more) and one for each literal. A literal and what stands before the next one
 * are 3 rows or more, as it has 127 rows or a run follows it: so there are at most (h + 2) / 3 literals. Rows that need it all exist. */
static inline size_t kg_plane_bound(uint32_t w, uint32_t h) { return 8 + (size_t)(w / 8) * (2 + (size_t)h + ((size_t)h + 2) / 3); }

/** Bytes of stack that are enough for a call: measured on x86-64 in a room in which every call goes as deep as it can, and rounded up; not
 * proved. host/calls/stack.c measures again with every test (docs/PERFORMANCE.md). A larger room takes no more. A host that is linked
 * dynamically and binds at first use needs what the dynamic linker takes beside it, once. */
enum {
    KG_STACK_RECORD = 6144,     /**< kg_record */
    KG_STACK_LOAD = 12288,      /**< kg_load */
    KG_STACK_DRAW = 24576,      /**< kg_draw_last, kg_draw_at, kg_hide */
    KG_STACK_TAKE_BACK = 24576, /**< kg_take_back */
    KG_STACK_OBJECT_AT = 24576, /**< kg_object_at */
    KG_STACK_HEADER = 6144,     /**< kg_header, kg_name, kg_name_number */
    KG_STACK_LIST = 12288,      /**< kg_list */
    KG_STACK_ACTOR = 1024,      /**< kg_hidden, kg_stamp, kg_cast */
    KG_STACK_COSTUME = 1024,    /**< kg_start, kg_tick, kg_limb_draws */
    KG_STACK_WRITE = 3072,      /**< kg_write_smap, kg_write_plane */
    KG_STACK_COMPARE = 12288    /**< kg_compare */
};

/* ---- Records ---- */

/** Where the fields of a room's record stand. All but the last are u16 (kg_u16). */
enum {
    KG_RECORD_WIDTH = 0,      /**< W in pixels */
    KG_RECORD_HEIGHT = 2,     /**< H in rows */
    KG_RECORD_PLANES = 4,     /**< N */
    KG_RECORD_OBJECTS = 6,    /**< how many objects the room has */
    KG_RECORD_TRANSPARENT = 8 /**< a byte: the transparent colour, from the room's TRNS block; 255 where it has none. For kg_stamp, kg_cast */
};

/** Where the fields of an object's header stand: CDHD's. Bytes, but for the id (kg_u16) and the walk point (kg_i16). */
enum {
    KG_HEADER_ID = 0,        /**< u16: the id that pairs the object with its image */
    KG_HEADER_X = 2,         /**< the box's left edge in strips of 8 pixels */
    KG_HEADER_Y = 3,         /**< the box's upper edge in units of 8 pixels */
    KG_HEADER_WIDTH = 4,     /**< the box's width in strips of 8 pixels */
    KG_HEADER_HEIGHT = 5,    /**< the box's height in units of 8 pixels */
    KG_HEADER_FLAGS = 6,     /**< bit 0x80: the parent's state must not be 0; without it, it must be 0 */
    KG_HEADER_PARENT = 7,    /**< the number of the object that contains this one, 0 for none */
    KG_HEADER_WALK_X = 8,    /**< i16: where an actor stands to use the object, in pixels */
    KG_HEADER_WALK_Y = 10,   /**< i16 */
    KG_HEADER_DIRECTION = 12 /**< where the actor then looks: E 0, W 1, N 2, S 3. kg_start counts otherwise: kg_costume_direction */
};

/** Where the fields of an object's row of kg_list stand. */
enum {
    KG_ROW_HEADER = 0,       /**< the object's header, KG_HEADER_SIZE bytes, as kg_header gives it */
    KG_ROW_NAME_START = 16,  /**< u32 (kg_u32): the first byte of its name, counted in the room; 0 where it has none */
    KG_ROW_NAME_LENGTH = 20, /**< u32: the length of its name */
    KG_ROW_STATES = 24       /**< u16: bit s - 1 for each state s from 1 to 9 that a draw can name, as kg_row_has_state reads it */
};

/** A little-endian u16 of a record, header or row. */
static inline uint32_t kg_u16(const uint8_t *at) { return (uint32_t)at[0] | ((uint32_t)at[1] << 8); }
/** A little-endian u32 of a row. */
static inline uint32_t kg_u32(const uint8_t *at) { return kg_u16(at) | (kg_u16(at + 2) << 16); }
/** A little-endian u16 of a header as a signed number (the walk point). */
static inline int32_t kg_i16(const uint8_t *at) { int32_t n = (int32_t)kg_u16(at); return n < 32768 ? n : n - 65536; }

/** The directions as kg_start counts them. */
enum kg_direction { KG_WEST = 0, KG_EAST = 1, KG_SOUTH = 2, KG_NORTH = 3 };

/** The direction for kg_start of a header's direction byte, which counts E 0, W 1, N 2, S 3. A byte above 3 stays, and kg_start refuses it. */
static inline uint32_t kg_costume_direction(uint32_t cdhd_direction) { return cdhd_direction < 4 ? cdhd_direction ^ 1 : cdhd_direction; }

/* ---- Sessions, read without a call. Any KG_SESSION_SIZE bytes may stand there. A count above 64 reads as 0: every call refuses such a
 * session with 9. What is asked for past a count reads as none. ---- */

/** The kinds of a step, and KG_STEP_NONE for a step that isn't there. */
enum kg_step_kind { KG_STEP_HIDE = 0, KG_STEP_DRAW_LAST = 1, KG_STEP_DRAW_AT = 2, KG_STEP_NONE = 3 };

/** A step of the history. What its kind doesn't have is 0. */
struct kg_step {
    uint32_t kind;   /**< one of kg_step_kind */
    uint32_t object; /**< the object's number, from 1 */
    uint32_t state;  /**< of both draws */
    uint32_t a;      /**< of a draw at a strip position: pixel column 8a */
    uint32_t b;      /**< of a draw at a strip position: pixel row 8b */
};

/** An entry of the shown list; object 0 where there is none. */
struct kg_entry {
    uint32_t object; /**< the object's number, from 1 */
    uint32_t state;  /**< the state that it is shown in */
};

/** An object's newest strip position. */
struct kg_position {
    uint32_t known; /**< 1, or 0 where the history has none: then a and b are 0 */
    uint32_t a;     /**< pixel column 8a */
    uint32_t b;     /**< pixel row 8b */
};

/** How many steps the history holds, 0 to 64. */
static inline uint32_t kg_session_steps(const uint8_t *session) { return session[0] <= KG_MAX_HISTORY ? session[0] : 0; }

/** How many entries the shown list has, 0 to 64. */
static inline uint32_t kg_session_shown(const uint8_t *session) { return session[1] <= KG_MAX_HISTORY ? session[1] : 0; }

/** Step i of the history, the oldest first, i from 0. */
static inline struct kg_step kg_session_step(const uint8_t *session, uint32_t i)
{
    struct kg_step step = { KG_STEP_NONE, 0, 0, 0, 0 };
    const uint8_t *at;
    if (i >= kg_session_steps(session)) return step;
    at = session + 2 + 5 * i;
    step.kind = at[0] < KG_STEP_DRAW_AT ? at[0] : (uint32_t)KG_STEP_DRAW_AT;
    step.object = at[1];
    step.state = step.kind == KG_STEP_HIDE ? 0 : at[2];
    step.a = step.kind == KG_STEP_DRAW_AT ? at[3] : 0;
    step.b = step.kind == KG_STEP_DRAW_AT ? at[4] : 0;
    return step;
}

/** Entry i of the shown list, i from 0: the one that is painted first comes first. */
static inline struct kg_entry kg_session_entry(const uint8_t *session, uint32_t i)
{
    struct kg_entry entry = { 0, 0 };
    if (i >= kg_session_shown(session)) return entry;
    entry.object = session[322 + 2 * i];
    entry.state = session[323 + 2 * i];
    return entry;
}

/** The state that an object is shown in, 0 where it isn't shown. */
static inline uint32_t kg_session_state(const uint8_t *session, uint32_t object)
{
    uint32_t i, shown = kg_session_shown(session);
    for (i = 0; i < shown; i++) {
        if (kg_session_entry(session, i).object == object) return kg_session_entry(session, i).state;
    }
    return 0;
}

/** An object's newest strip position in the history. Where there is one, the object's box and image stand there; else the box stands at its
 * header's place, and the image at IMHD's. */
static inline struct kg_position kg_session_position(const uint8_t *session, uint32_t object)
{
    struct kg_position position = { 0, 0, 0 };
    uint32_t i;
    for (i = kg_session_steps(session); i > 0; i--) {
        struct kg_step step = kg_session_step(session, i - 1);
        if (step.kind != KG_STEP_DRAW_AT || step.object != object) continue;
        position.known = 1;
        position.a = step.a;
        position.b = step.b;
        return position;
    }
    return position;
}

/* ---- Rooms ---- */

/** The room's record (KG_RECORD_WIDTH and so on). Refusals 1 to 8. */
uint32_t kg_record(const uint8_t *room, size_t room_size, uint8_t *record, size_t record_size);

/** Loads a room: paints pixels and masks, and empties the session. Refusals 1 to 8. */
uint32_t kg_load(const uint8_t *room, size_t room_size, uint8_t *session, size_t session_size, uint8_t *pixels, size_t pixels_size,
                 uint8_t *masks, size_t masks_size);

/* The four calls that follow make steps. Room, session and surfaces are those of the load, written by nobody else meanwhile. Only the strips
 * that a step touches are rebuilt. Refusals 1 to 8 for the room, then 9 to 13 as the call has them, then 2 and 5 to 8 for the image. */

/** Draws an object (counted from 1) in a state where it last was. */
uint32_t kg_draw_last(const uint8_t *room, size_t room_size, uint8_t *session, size_t session_size, uint8_t *pixels, size_t pixels_size,
                      uint8_t *masks, size_t masks_size, uint32_t object, uint32_t state);

/** Draws an object in a state at strip position (a, b), which is pixel (8a, 8b). */
uint32_t kg_draw_at(const uint8_t *room, size_t room_size, uint8_t *session, size_t session_size, uint8_t *pixels, size_t pixels_size,
                    uint8_t *masks, size_t masks_size, uint32_t object, uint32_t state, uint32_t a, uint32_t b);

/** Hides an object that is shown. */
uint32_t kg_hide(const uint8_t *room, size_t room_size, uint8_t *session, size_t session_size, uint8_t *pixels, size_t pixels_size,
                 uint8_t *masks, size_t masks_size, uint32_t object);

/** Takes the newest step back. */
uint32_t kg_take_back(const uint8_t *room, size_t room_size, uint8_t *session, size_t session_size, uint8_t *pixels, size_t pixels_size,
                      uint8_t *masks, size_t masks_size);

/* ---- Objects ---- */

/** The object under the point (x, y): the lowest-numbered one whose box holds the point, whose byte in `flags` (a byte for each object,
 * object 1 first) is 0 and whose containers are all in the state that their contents ask for. The value is its number, 0 for none.
 * Refusals 1 to 8, 9, 14. */
uint64_t kg_object_at(const uint8_t *room, size_t room_size, const uint8_t *session, size_t session_size, const uint8_t *flags,
                      size_t flags_size, uint32_t x, uint32_t y);

/** Lists a room in one test: fills `record` as kg_record does, and in `rows` a row of KG_ROW_SIZE bytes for each object, object 1 first: its header
 * as kg_header gives it, where its name stands as kg_name tells it, and which of its states can be drawn (KG_ROW_HEADER and so on; kg_row_at).
 * Refusals 1 to 8: 4 where `record` has fewer than KG_RECORD_SIZE bytes or `rows` fewer than KG_ROW_SIZE for each object; KG_MAX_ROWS bytes are
 * always enough. */
uint32_t kg_list(const uint8_t *room, size_t room_size, uint8_t *record, size_t record_size, uint8_t *rows, size_t rows_size);

/** The row of an object in kg_list's rows, objects counted from 1. */
static inline const uint8_t *kg_row_at(const uint8_t *rows, uint32_t object) { return rows + (size_t)KG_ROW_SIZE * (object - 1); }

/** Whether a state can be drawn: 1 where a draw of the row's object in that state isn't refused with 11, else 0. The state's image isn't tested by
 * the listing: a draw may still be refused with 2 or 5 to 8 for it, or with 12 for its place. */
static inline uint32_t kg_row_has_state(const uint8_t *row, uint32_t state)
{
    return state >= 1 && state <= 9 ? kg_u16(row + KG_ROW_STATES) >> (state - 1) & 1u : 0;
}

/** An object's header, objects counted from 1: CDHD's 13 bytes (KG_HEADER_ID and so on), then three zeros. Refusals 1 to 8, 11. */
uint32_t kg_header(const uint8_t *room, size_t room_size, uint8_t *header, size_t header_size, uint32_t object);

/** An object's name, as a part of the room: kg_name_start and kg_name_length; 0 and 0 where it has none or the call is refused. `@` is kept,
 * and there is no closing NUL. kg_name_number tells whether it is refused. */
uint64_t kg_name(const uint8_t *room, size_t room_size, uint32_t object);

/** The number of the kg_name call with the same arguments. Refusals 1 to 8, 11. */
uint32_t kg_name_number(const uint8_t *room, size_t room_size, uint32_t object);

/* ---- Actors ---- */

/** Whether an actor's pixel at (x, y) is hidden at a clip level: value 1 or 0. Only the plane that the clip level names counts; clip 0 and
 * a clip above `planes` hide nothing. Refusals 3, 4, 14.
 * @param masks,masks_size    the room's masks, as load and steps left them
 * @param room_w,room_h       the room's size in pixels
 * @param planes              how many planes the room has
 * @param clip                the actor's clip level
 * @param x,y                 the pixel in the room */
uint64_t kg_hidden(const uint8_t *masks, size_t masks_size, uint32_t room_w, uint32_t room_h, uint32_t planes, uint32_t clip, uint32_t x,
                   uint32_t y);

/** Stamps an actor's picture on a frame: its pixels other than `clear` that lie in the frame and are not hidden. Refusals 3, 4.
 * @param frame,frame_size      a copy of the room's pixels, room_w by room_h; it is written
 * @param masks,masks_size      the room's masks, as load and steps left them
 * @param picture,picture_size  picture_w * picture_h bytes by rows
 * @param room_w,room_h         the room's size in pixels
 * @param planes                how many planes the room has
 * @param picture_w,picture_h   the picture's size in pixels
 * @param x,y                   where the picture's upper left corner goes; it may lie outside the frame
 * @param clip                  the actor's clip level, as in kg_hidden
 * @param clear                 the colour that is not painted: the room's own is byte KG_RECORD_TRANSPARENT of its record */
uint32_t kg_stamp(uint8_t *frame, size_t frame_size, const uint8_t *masks, size_t masks_size, const uint8_t *picture, size_t picture_size,
                  uint32_t room_w, uint32_t room_h, uint32_t planes, uint32_t picture_w, uint32_t picture_h, int32_t x, int32_t y,
                  uint32_t clip, uint8_t clear);

/** An actor of a cast (docs/LAYOUTS.md): the host's own struct, 32 bytes without padding, its numbers as the machine keeps them. */
struct kg_actor {
    uint32_t id;     /**< of two actors with the same y the lower id is painted first */
    int32_t y;       /**< the y of its feet in the room: the actor with the smaller one stands farther back and is painted first */
    int32_t left;    /**< where its picture's upper left corner goes, as x of kg_stamp; it may lie outside the frame */
    int32_t top;     /**< as y of kg_stamp */
    uint32_t width;  /**< its picture's width in pixels, 1 to KG_MAX_PICTURE_WIDTH */
    uint32_t height; /**< its picture's height in pixels, 1 to KG_MAX_PICTURE_HEIGHT */
    uint32_t clip;   /**< its clip level, as in kg_hidden */
    uint32_t start;  /**< where its picture starts in the lent pictures: width * height bytes by rows */
};

/** @cond */
/* A compiler that lays the struct out otherwise stops here. */
typedef char kg_actor_is_laid_out_as_said[
    sizeof(struct kg_actor) == KG_ACTOR_SIZE && offsetof(struct kg_actor, id) == 0 && offsetof(struct kg_actor, y) == 4
    && offsetof(struct kg_actor, left) == 8 && offsetof(struct kg_actor, top) == 12 && offsetof(struct kg_actor, width) == 16
    && offsetof(struct kg_actor, height) == 20 && offsetof(struct kg_actor, clip) == 24 && offsetof(struct kg_actor, start) == 28 ? 1 : -1];
/** @endcond */

/** Paints a whole cast, back to front: puts the list in painting order in place, smaller y first, then lower id, actors with both the same in
 * the order they came in; then stamps each as kg_stamp does, in that order. A host that keeps the list from frame to frame finds an actor
 * in it by its id, and a list that is nearly in order is put in order quickest. Refusals: 18 for more than KG_MAX_CAST actors, and then no
 * actor is read; then 3 and 4 for the frame and the planes, an empty list's too; then those of the first bad actor in the list as handed
 * in, 3 for its picture's size before 4 for one that passes the end of `pictures`. Refused, neither list nor frame changes.
 * @param cast,count              `count` actors (not bytes); they are put in order
 * @param frame,frame_size        a copy of the room's pixels, room_w by room_h; it is written
 * @param masks,masks_size        the room's masks, as load and steps left them
 * @param pictures,pictures_size  the actors' pictures; they may share bytes
 * @param room_w,room_h           the room's size in pixels
 * @param planes                  how many planes the room has
 * @param clear                   the colour that is not painted: the room's own is byte KG_RECORD_TRANSPARENT of its record */
uint32_t kg_cast(struct kg_actor *cast, size_t count, uint8_t *frame, size_t frame_size, const uint8_t *masks, size_t masks_size,
                 const uint8_t *pictures, size_t pictures_size, uint32_t room_w, uint32_t room_h, uint32_t planes, uint8_t clear);

/* ---- Costumes ---- */

/** Starts a costume's animation. Value 1 where the animation is defined, else 0 and nothing changed. Refusals 4, 15.
 * @param payload,payload_size  the costume's bytes
 * @param limbs,limbs_size      KG_LIMBS_SIZE bytes; zeros are 16 idle limbs
 * @param table                 the payload byte at which the table of u16 offsets stands
 * @param count                 how many offsets the table has
 * @param command               the stored command offset
 * @param chore                 the animation, 0 to 243
 * @param direction             KG_WEST, KG_EAST, KG_SOUTH or KG_NORTH. An object's header counts otherwise: kg_costume_direction */
uint64_t kg_start(const uint8_t *payload, size_t payload_size, uint8_t *limbs, size_t limbs_size, uint32_t table, uint32_t count,
                  uint32_t command, uint32_t chore, uint32_t direction);

/** One tick of all limbs. Refusals 4, 15. */
uint32_t kg_tick(const uint8_t *payload, size_t payload_size, uint8_t *limbs, size_t limbs_size, uint32_t command);

/** Whether limb 0 to 15 draws: value 0, or 256 and the picture. Refusals 4, 15: there is no such limb, or any of the 16 is active with a length
 * that isn't 1 to 128 or a place outside its window. No stream is lent here, so a window's end isn't tested. */
uint64_t kg_limb_draws(const uint8_t *limbs, size_t limbs_size, uint32_t limb);

/* ---- Comparing ---- */

/** Compares two rooms by what they decode to, strip by strip, left to right. For each strip whose pixels or whose rows in any plane differ a
 * place of `list` is filled (KG_DIFFERENCE_SIZE bytes; kg_difference_at reads them): the strip, how many of its pixels differ and which
 * planes. The value is how many places were filled: 0 where nothing differs. The same picture under another code is no difference; planes
 * are compared up to the larger number of planes, one that a room doesn't declare reading as zero. Objects and the transparent
 * colour are not compared. a and b may be the same bytes. Refusals: 1 to 8 without 4 for a, then for b, then 16 where width or height differs,
 * then 4 where the list has fewer places than strips differ; KG_MAX_DIFFERENCES bytes are always enough. kg_record tells which of the two
 * rooms is refused. */
uint64_t kg_compare(const uint8_t *a, size_t a_size, const uint8_t *b, size_t b_size, uint8_t *list, size_t list_size);

/** A place of kg_compare's list. */
struct kg_difference {
    uint32_t strip;  /**< the strip's number, from 0: pixel columns 8 * strip to 8 * strip + 7 */
    uint32_t pixels; /**< how many of its pixels differ, 0 to 1,600 */
    uint32_t planes; /**< the planes that differ: bit k - 1 for plane k */
};

/** Place i of the list, i from 0 and below the value of kg_compare's answer. */
static inline struct kg_difference kg_difference_at(const uint8_t *list, uint32_t i)
{
    struct kg_difference difference;
    const uint8_t *at = list + (size_t)KG_DIFFERENCE_SIZE * i;
    difference.strip = kg_u16(at);
    difference.pixels = kg_u16(at + 2);
    difference.planes = at[4];
    return difference;
}

/* ---- Writing ---- */

/** Writes a background of w by h as a whole SMAP block. The value is the block's length, at most kg_smap_bound(w, h). Refusals 3, 4. */
uint64_t kg_write_smap(const uint8_t *rows, size_t rows_size, uint8_t *out, size_t out_size, uint32_t w, uint32_t h);

/** Writes one plane's (w / 8) * h mask bytes as the whole block ZP0k, k 1 to 4. The value is the block's length, at most
 * kg_plane_bound(w, h). Refusals 3, 4. */
uint64_t kg_write_plane(const uint8_t *rows, size_t rows_size, uint8_t *out, size_t out_size, uint32_t w, uint32_t h, uint32_t k);

#ifdef __cplusplus
}
#endif

#endif
