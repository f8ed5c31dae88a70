/* Calls of a list: as the records that tools/calls makes of it, and as its lines. */
#include "calls.h"

#include <stdio.h>

static uint32_t u32(const uint8_t *at)
{
    return kg_u16(at) | (kg_u16(at + 2) << 16);
}

struct call call_of_record(const uint8_t *bytes)
{
    struct call call;
    call.kind = u32(bytes);
    call.object = u32(bytes + 4);
    call.state = u32(bytes + 8);
    call.a = u32(bytes + 12);
    call.b = u32(bytes + 16);
    return call;
}

/* The kinds of steps have the numbers that they have in a record. */
struct call call_of_step(struct kg_step step)
{
    struct call call;
    call.kind = step.kind;
    call.object = step.object;
    call.state = step.state;
    call.a = step.a;
    call.b = step.b;
    return call;
}

void call_line(struct call call, char line[CALL_LINE])
{
    unsigned long object = call.object, state = call.state, a = call.a, b = call.b;
    switch (call.kind) {
    case CALL_HIDE: snprintf(line, CALL_LINE, "hide %lu", object); break;
    case CALL_DRAW_LAST: snprintf(line, CALL_LINE, "draw %lu %lu", object, state); break;
    case CALL_DRAW_AT: snprintf(line, CALL_LINE, "draw %lu %lu at %lu %lu", object, state, a, b); break;
    default: snprintf(line, CALL_LINE, "back"); break;
    }
}
