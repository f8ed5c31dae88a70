/* A room on the bench. */
#include "bench.h"

#include <string.h>

/* The lent buffers of a session call, in their order. */
#define LENT(bench) \
    (bench)->room, (bench)->room_size, (bench)->session, sizeof (bench)->session, (bench)->pixels, (bench)->pixels_size, (bench)->masks, \
        (bench)->masks_size

const uint8_t *bench_row(const struct bench *bench, uint32_t object) { return kg_row_at(bench->rows, object); }
const uint8_t *bench_header(const struct bench *bench, uint32_t object) { return bench_row(bench, object) + KG_ROW_HEADER; }

uint32_t bench_load(struct bench *bench)
{
    uint8_t record[KG_RECORD_SIZE];
    uint32_t number = kg_list(bench->room, bench->room_size, record, sizeof record, bench->rows, sizeof bench->rows);
    if (number != KG_ACCEPTED) return number;
    bench->width = kg_u16(record + KG_RECORD_WIDTH);
    bench->height = kg_u16(record + KG_RECORD_HEIGHT);
    bench->planes = kg_u16(record + KG_RECORD_PLANES);
    bench->objects = kg_u16(record + KG_RECORD_OBJECTS);
    bench->clear = record[KG_RECORD_TRANSPARENT];
    bench->pixels_size = kg_pixels_size(bench->width, bench->height);
    bench->masks_size = kg_masks_size(bench->width, bench->height, bench->planes);
    return kg_load(LENT(bench));
}

uint32_t bench_call(struct bench *bench, struct call call)
{
    switch (call.kind) {
    case CALL_HIDE: return kg_hide(LENT(bench), call.object);
    case CALL_DRAW_LAST: return kg_draw_last(LENT(bench), call.object, call.state);
    case CALL_DRAW_AT: return kg_draw_at(LENT(bench), call.object, call.state, call.a, call.b);
    default: return kg_take_back(LENT(bench));
    }
}

const char *bench_reason(const struct bench *bench, uint32_t number)
{
    return bench->room_size > KG_MAX_ROOM ? "longer than 1,048,576 bytes" : kg_refusal_text(number);
}

int bench_box(const struct bench *bench, uint32_t object, struct box *box)
{
    const uint8_t *header = bench_header(bench, object);
    struct kg_position position = kg_session_position(bench->session, object);
    box->left = 8 * (position.known ? position.a : header[KG_HEADER_X]);
    box->top = 8 * (position.known ? position.b : header[KG_HEADER_Y]);
    box->width = 8u * header[KG_HEADER_WIDTH];
    box->height = 8u * header[KG_HEADER_HEIGHT];
    return box->width != 0 && box->height != 0;
}

void bench_name(const struct bench *bench, uint32_t object, char name[NAME_SIZE])
{
    const uint8_t *row = bench_row(bench, object), *bytes = bench->room + kg_u32(row + KG_ROW_NAME_START);
    size_t length = kg_u32(row + KG_ROW_NAME_LENGTH), i;
    while (length > 0 && bytes[length - 1] == '@') length--;
    if (length > NAME_SIZE - 1) length = NAME_SIZE - 1;
    for (i = 0; i < length; i++) name[i] = (char)(bytes[i] >= ' ' && bytes[i] <= '~' ? bytes[i] : '?');
    name[length] = '\0';
}
