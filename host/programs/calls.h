/* Calls of a list: as the records that tools/calls makes of it, and as its lines. */
#ifndef CALLS_H
#define CALLS_H

#include "kildegrom.h"

enum { CALL_SIZE = 20, CALL_LINE = 64 };
enum call_kind { CALL_HIDE = 0, CALL_DRAW_LAST = 1, CALL_DRAW_AT = 2, CALL_BACK = 3 };

/* What a kind doesn't have is 0. */
struct call {
    uint32_t kind, object, state, a, b;
};

/* The call of a record of CALL_SIZE bytes; its kind may be none of the four. */
struct call call_of_record(const uint8_t *bytes);

/* The call that made a step of a session's history. */
struct call call_of_step(struct kg_step step);

/* The call as a line of a list, without its end: `draw 1 2 at 3 4`. */
void call_line(struct call call, char line[CALL_LINE]);

#endif
