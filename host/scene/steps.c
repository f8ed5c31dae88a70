/* The calls that a person makes with keys and hand: selecting, drawing, moving, hiding, taking back. */
#include "scene.h"

#include <stdarg.h>
#include <stdio.h>
#include <string.h>

void tell(int refused, const char *format, ...)
{
    va_list values;
    va_start(values, format);
    vsnprintf(scene.message, sizeof scene.message, format, values);
    va_end(values);
    scene.refused = refused;
    scene.changed = 1;
}

/* A call as a message has it: a strip position left of the room or above it with its sign. */
static void signed_line(struct call call, char line[CALL_LINE])
{
    if (call.kind == CALL_DRAW_AT)
        snprintf(line, CALL_LINE, "draw %lu %lu at %ld %ld", (unsigned long)call.object, (unsigned long)call.state, (long)(int32_t)call.a,
                 (long)(int32_t)call.b);
    else call_line(call, line);
}

static void tell_call(struct call call, uint32_t number)
{
    char line[CALL_LINE];
    signed_line(call, line);
    if (number == KG_ACCEPTED) tell(0, "%s", line);
    else tell(1, "%s: refused %lu: %s", line, (unsigned long)number, kg_refusal_text(number));
}

/* Every change of the room is made here. A call of its own ends a move by the arrow keys. */
static uint32_t make_call(struct call call)
{
    uint32_t number = bench_call(&scene.bench, call);
    tell_call(call, number);
    scene.changed = 1;
    return number;
}

static int has_selected(void)
{
    if (scene.selected == 0) tell(1, "no object is selected: click one, or go to one with Tab");
    return scene.selected != 0;
}

void select_object(uint32_t object)
{
    if (object != scene.selected) scene.arrows.object = 0;
    scene.selected = object;
    scene.changed = 1;
}

/* All objects, those too that no point reaches. */
void select_next(int back)
{
    uint32_t count = scene.bench.objects;
    if (count == 0) {
        tell(1, "the room has no objects");
        return;
    }
    if (back) select_object(scene.selected <= 1 ? count : scene.selected - 1);
    else select_object(scene.selected >= count ? 1 : scene.selected + 1);
    show_selected();
}

/* The object under a point of the room, as the library answers it. */
void select_at(int32_t x, int32_t y)
{
    struct bench *bench = &scene.bench;
    uint64_t answer = kg_object_at(bench->room, bench->room_size, bench->session, sizeof bench->session, scene.flags, bench->objects, (uint32_t)x,
                                   (uint32_t)y);
    if (kg_number(answer) != KG_ACCEPTED) {
        tell(1, "refused %lu: %s", (unsigned long)kg_number(answer), kg_refusal_text(kg_number(answer)));
        return;
    }
    select_object(kg_value(answer));
    if (kg_value(answer) == 0) tell(0, "no object at %ld %ld", (long)x, (long)y);
    else tell(0, "object %lu", (unsigned long)kg_value(answer));
}

void draw_state(uint32_t state)
{
    struct call call = { CALL_DRAW_LAST, scene.selected, state, 0, 0 };
    if (!has_selected()) return;
    scene.arrows.object = 0;
    make_call(call);
}

void hide_selected(void)
{
    struct call call = { CALL_HIDE, scene.selected, 0, 0, 0 };
    if (!has_selected()) return;
    scene.arrows.object = 0;
    make_call(call);
}

void take_back(void)
{
    struct call call = { CALL_BACK, 0, 0, 0, 0 };
    scene.arrows.object = 0;
    make_call(call);
}

/* The state in which a move draws an object: the one that is shown, else the lowest that can be drawn. */
static uint32_t state_to_move(uint32_t object)
{
    uint32_t shown = kg_session_state(scene.bench.session, object), state;
    if (shown != 0) return shown;
    while (scene.asked < object && ask_states()) { }
    for (state = 1; state <= 9; state++) {
        if ((scene.states[object] >> state & 1) != 0) return state;
    }
    return 1;
}

/* A move that begins: the object's strip position is where its box stands. */
static struct move move_of(uint32_t object)
{
    struct move move = { 0, 0, 0, 0, 0, 0, 0, 0, 0 };
    struct kg_position position = kg_session_position(scene.bench.session, object);
    const uint8_t *header = bench_header(&scene.bench, object);
    move.object = object;
    move.state = state_to_move(object);
    move.a = (int32_t)(position.known ? position.a : header[KG_HEADER_X]);
    move.b = (int32_t)(position.known ? position.b : header[KG_HEADER_Y]);
    move.start_a = move.a;
    move.start_b = move.b;
    return move;
}

static struct call call_of_move(const struct move *move, int32_t a, int32_t b)
{
    struct call call = { CALL_DRAW_AT, 0, 0, 0, 0 };
    call.object = move->object;
    call.state = move->state;
    call.a = (uint32_t)a;
    call.b = (uint32_t)b;
    return call;
}

/* Draws the object at another strip position. Where the newest step is this move's own, it is taken back first; where the new place is then
 * refused, it is made again, so that the room stays as it was. */
static void move_to(struct move *move, int32_t a, int32_t b)
{
    static const struct call back = { CALL_BACK, 0, 0, 0, 0 };
    struct call call = call_of_move(move, a, b);
    uint32_t number;
    if (move->stepped) bench_call(&scene.bench, back);
    number = make_call(call);
    if (number == KG_ACCEPTED) {
        move->a = a;
        move->b = b;
        move->stepped = 1;
    } else if (move->stepped) {
        bench_call(&scene.bench, call_of_move(move, move->a, move->b));
    }
}

/* Arrow after arrow on one object is one move. */
void move_selected(int32_t right, int32_t down)
{
    struct move *move = &scene.arrows;
    if (!has_selected()) return;
    if (move->object != scene.selected) *move = move_of(scene.selected);
    move_to(move, move->a + right, move->b + down);
    show_selected();
}

/* The hand takes the selected object at a point of the room. */
void drag_begin(int32_t x, int32_t y)
{
    if (scene.selected == 0) return;
    scene.arrows.object = 0;
    scene.drag = move_of(scene.selected);
    scene.drag.grip_x = x - 8 * scene.drag.a;
    scene.drag.grip_y = y - 8 * scene.drag.b;
}

/* Strips are counted to the nearest; the division rounds down for a hand left of the room, too. */
static int32_t strip_near(int32_t pixel)
{
    return (pixel + 4 + 8 * 65536) / 8 - 65536;
}

void drag_to(int32_t x, int32_t y)
{
    static const struct call back = { CALL_BACK, 0, 0, 0, 0 };
    struct move *move = &scene.drag;
    int32_t a = strip_near(x - move->grip_x), b = strip_near(y - move->grip_y);
    if (move->object == 0 || (a == move->a && b == move->b)) return;
    if (a != move->start_a || b != move->start_b) {
        move_to(move, a, b);
    } else if (move->stepped) { /* back where it began: no step is left */
        make_call(back);
        move->a = a;
        move->b = b;
        move->stepped = 0;
    }
}

void drag_end(void)
{
    scene.drag.object = 0;
}

void toggle_flag(void)
{
    uint8_t *flag;
    if (!has_selected()) return;
    flag = &scene.flags[scene.selected - 1];
    *flag = (uint8_t)!*flag;
    tell(0, "object %lu: a click %s", (unsigned long)scene.selected, *flag ? "passes it over" : "selects it");
}
