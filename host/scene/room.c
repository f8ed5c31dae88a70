/* The room's file: opened, and loaded again where it changes, with the steps that stand; and which states of its objects can be drawn. */
#include "files.h"
#include "message.h"
#include "scene.h"

#include <stdio.h>
#include <string.h>
#include <sys/stat.h>

/* A room beside the one that is shown: a changed file is tried here, and states are. */
static struct bench other;
static struct stat seen;

static void forget_states(void)
{
    memset(scene.states, 0, sizeof scene.states);
    scene.asked = 0;
}

/* A refused step in words, for the panel and, since a panel is soon gone, for standard error. */
static void note_refused(const char *step, uint32_t number)
{
    char *line = scene.told[scene.told_count < MOST_TOLD ? scene.told_count++ : MOST_TOLD - 1];
    snprintf(line, MESSAGE_SIZE, "%s: refused %lu: %s", step, (unsigned long)number, kg_refusal_text(number));
    say("%s", line);
}

/* The calls of a list, by the records and the names that tools/calls makes of it. */
static void play_list(const char *records, const char *names)
{
    FILE *calls = opened(records), *words = opened(names);
    uint8_t bytes[CALL_SIZE];
    char name[MESSAGE_SIZE];
    while (fread(bytes, 1, sizeof bytes, calls) == sizeof bytes) {
        uint32_t number = bench_call(&scene.bench, call_of_record(bytes));
        if (fgets(name, sizeof name, words) == NULL) name[0] = '\0';
        name[strcspn(name, "\n")] = '\0';
        if (number != KG_ACCEPTED) note_refused(name, number);
    }
    fclose(calls);
    fclose(words);
}

void open_room(const char *records, const char *names)
{
    struct bench *bench = &scene.bench;
    uint32_t number;
    stat(scene.path, &seen);
    bench->room_size = read_file(scene.path, bench->room, sizeof bench->room);
    number = bench_load(bench);
    if (number != KG_ACCEPTED) stop(1, "%s: refused %lu: %s", scene.path, (unsigned long)number, bench_reason(bench, number));
    take_palette(&scene.palette, scene.palette_path, bench->room, bench->room_size);
    if (records != NULL) play_list(records, names);
    forget_states();
    scene.changed = 1;
}

/* The steps that stand on the shown room, on the other one. */
static void play_steps(void)
{
    uint32_t i, steps = kg_session_steps(scene.bench.session);
    scene.told_count = 0;
    for (i = 0; i < steps; i++) {
        struct call call = call_of_step(kg_session_step(scene.bench.session, i));
        uint32_t number = bench_call(&other, call);
        char line[CALL_LINE];
        call_line(call, line);
        if (number != KG_ACCEPTED) note_refused(line, number);
    }
}

/* Takes the other room as the one that is shown. Steps that it refuses are lost from the history, so the list is kept as it was. */
static void change_rooms(void)
{
    play_steps();
    if (scene.told_count > 0) keep_list();
    scene.bench = other;
    if (scene.selected > scene.bench.objects) scene.selected = 0;
    scene.drag.object = 0;
    scene.arrows.object = 0;
    take_palette(&scene.palette, scene.palette_path, scene.bench.room, scene.bench.room_size);
    forget_states();
    if (scene.told_count == 0) tell(0, "the room has changed: loaded again, with its steps");
    else tell(1, "the room has changed: loaded again, steps refused: %lu (all of them are in %s)", (unsigned long)scene.told_count, scene.kept);
}

static void load_again(void)
{
    const char *why = read_bytes(scene.path, other.room, sizeof other.room, &other.room_size);
    uint32_t number;
    if (why != NULL) {
        tell(1, "the room has changed, and %s: the old one is shown", why);
        return;
    }
    number = bench_load(&other);
    if (number == KG_ACCEPTED) change_rooms();
    else tell(1, "the changed room is refused %lu: %s: the old one is shown", (unsigned long)number, bench_reason(&other, number));
    scene.asked = 0; /* the other room's bytes are new */
}

/* Whether the file is another than when it was looked at last. A file that is gone for a moment, as while an editor writes it, is waited for. */
void look_at_file(void)
{
    struct stat now;
    if (stat(scene.path, &now) != 0) return;
    if (now.st_mtim.tv_sec == seen.st_mtim.tv_sec && now.st_mtim.tv_nsec == seen.st_mtim.tv_nsec && now.st_size == seen.st_size
        && now.st_ino == seen.st_ino)
        return;
    seen = now;
    load_again();
}

/* Whether a state can be drawn, on a fresh session: at the image's own place, or at the corner where that is not allowed. */
static int can_draw(uint32_t object, uint32_t state)
{
    static const struct call back = { CALL_BACK, 0, 0, 0, 0 };
    struct call call = { CALL_DRAW_LAST, 0, 0, 0, 0 };
    uint32_t number;
    call.object = object;
    call.state = state;
    number = bench_call(&other, call);
    if (number == KG_PLACE_NOT_ALLOWED) {
        call.kind = CALL_DRAW_AT;
        number = bench_call(&other, call);
    }
    if (number == KG_ACCEPTED) bench_call(&other, back);
    return number == KG_ACCEPTED;
}

/* Asks for the states of one object more: whether there was one. */
int ask_states(void)
{
    uint32_t object = scene.asked + 1, state;
    if (object > scene.bench.objects) return 0;
    if (scene.asked == 0) {
        memcpy(other.room, scene.bench.room, scene.bench.room_size);
        other.room_size = scene.bench.room_size;
        bench_load(&other);
    }
    for (state = 1; state <= 9; state++) {
        if (kg_row_has_state(bench_row(&scene.bench, object), state) && can_draw(object, state)) scene.states[object] |= (uint16_t)(1u << state);
    }
    scene.asked = object;
    scene.changed = 1;
    return 1;
}
