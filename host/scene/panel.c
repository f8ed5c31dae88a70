/* The texts of the window: the panel with the room's objects, its history and its planes, the two lines of state, and the help. */
#include "scene.h"
#include "text.h"

#include <stdarg.h>
#include <stdio.h>
#include <string.h>

enum { LINE_SIZE = 256, EDGE = 4, LEAST_ROWS = 4, ROW = CELL_HEIGHT + 2 };

static const struct colour ground = { { 44, 44, 54 } }, ink = { { 214, 214, 206 } }, faint = { { 140, 140, 148 } }, bright = { { 255, 226, 130 } },
                           wrong = { { 255, 132, 120 } };

/* Lines from the top down; those below the last row are left out. */
struct column {
    const struct canvas *canvas;
    int32_t left;
    uint32_t size, row, rows;
};

static void put_line(struct column *column, struct colour colour, const char *format, ...)
{
    char line[LINE_SIZE];
    va_list values;
    va_start(values, format);
    vsnprintf(line, sizeof line, format, values);
    va_end(values);
    if (column->row >= column->rows) return;
    line[PANEL_COLUMNS] = '\0';
    text_put(column->canvas, column->left, (int32_t)((EDGE + ROW * column->row) * column->size), column->size, colour, line);
    column->row++;
}

/* How many rows are free, of which `kept` are for what comes below. */
static uint32_t rows_left(const struct column *column, uint32_t kept)
{
    uint32_t used = column->row + kept;
    return used < column->rows ? column->rows - used : 0;
}

/* The states that can be drawn as digits, `...` where they are not known yet. */
static void states_text(uint32_t object, char *text)
{
    uint32_t state;
    if (object > scene.asked) {
        strcpy(text, "...");
        return;
    }
    for (state = 1; state <= 9; state++) {
        if ((scene.states[object] >> state & 1) != 0) *text++ = (char)('0' + state);
    }
    strcpy(text, "");
}

static void put_object(struct column *column, uint32_t object)
{
    const struct bench *bench = &scene.bench;
    struct kg_position position = kg_session_position(bench->session, object);
    struct box box = { 0, 0, 0, 0 };
    uint32_t shown = kg_session_state(bench->session, object);
    char name[NAME_SIZE], states[16], place[32] = "-", now[16] = "-", size[48];
    int is_selected = object == scene.selected;
    bench_name(bench, object, name);
    bench_box(bench, object, &box);
    states_text(object, states);
    if (shown != 0) snprintf(now, sizeof now, "%lu", (unsigned long)shown);
    if (position.known) snprintf(place, sizeof place, "%lu %lu", (unsigned long)position.a, (unsigned long)position.b);
    snprintf(size, sizeof size, "%lu %lu %lux%lu", (unsigned long)box.left, (unsigned long)box.top, (unsigned long)box.width, (unsigned long)box.height);
    put_line(column, is_selected ? bright : ink, "%c%3lu%c%5lu %-12.12s %-6s %2s  %-14s %s", is_selected ? '>' : ' ', (unsigned long)object,
             scene.flags[object - 1] ? 'u' : ' ', (unsigned long)kg_u16(bench_header(bench, object) + KG_HEADER_ID), name, states, now, size, place);
}

/* As many objects as there are rows, the selected one among them. */
static void put_objects(struct column *column, uint32_t rows)
{
    uint32_t count = scene.bench.objects, first = 1, object;
    put_line(column, faint, "  no    id name         states now box            at");
    if (scene.selected > rows) first = scene.selected - rows + 1;
    for (object = first; object <= count && object < first + rows; object++) put_object(column, object);
    if (count > rows) put_line(column, faint, "  %lu to %lu of %lu", (unsigned long)first, (unsigned long)(first + rows - 1), (unsigned long)count);
}

/* The newest steps at the bottom, the very newest marked. */
static void put_history(struct column *column, uint32_t rows)
{
    const uint8_t *session = scene.bench.session;
    uint32_t steps = kg_session_steps(session), i = steps > rows ? steps - rows : 0;
    put_line(column, faint, "HISTORY  %lu of %d, %lu left%s", (unsigned long)steps, KG_MAX_HISTORY, (unsigned long)(KG_MAX_HISTORY - steps),
             is_unsaved() ? "  (not saved)" : "");
    for (; i < steps; i++) {
        char line[CALL_LINE];
        call_line(call_of_step(kg_session_step(session, i)), line);
        put_line(column, i + 1 == steps ? bright : ink, "%c %s", i + 1 == steps ? '>' : ' ', line);
    }
}

static void put_planes(struct column *column)
{
    char tint[16] = "none", actor[32] = "off";
    if (scene.view.plane == ALL_PLANES) strcpy(tint, "all");
    else if (scene.view.plane != 0) snprintf(tint, sizeof tint, "%lu", (unsigned long)scene.view.plane);
    if (scene.actor.on) snprintf(actor, sizeof actor, "clip %lu", (unsigned long)scene.actor.clip);
    put_line(column, faint, "PLANES  %lu, tinted: %s   actor: %s", (unsigned long)scene.bench.planes, tint, actor);
}

static void put_told(struct column *column)
{
    uint32_t i;
    if (scene.told_count == 0) return;
    put_line(column, faint, "REFUSED");
    for (i = 0; i < scene.told_count; i++) put_line(column, wrong, "  %s", scene.told[i]);
}

/* The keys, in the help and, where there is room, at the panel's foot. */
static const char *const keys[] = {
    "click          selects; U: a click passes the object over",
    "Tab, Shift-Tab the next object, the one before",
    "1 to 9         draws that state where the object last was",
    "drag, arrows   draws it at the strip position under the hand",
    "Shift-drag     the selected object, whatever is clicked",
    "H              hides it",
    "Ctrl-Z, Backspace  takes the newest step back",
    "P              tints what plane 1, 2, ..., all of them hide",
    "B, G, N        boxes, a grid of strips, names",
    "A, [ and ]     an actor at the pointer; its clip level",
    "+ and -        the scale; the wheel scrolls",
    "I, T, F1       the panel, larger text, these lines",
    "Ctrl-S, Ctrl-P writes the list of steps, the picture",
    "Ctrl-Q         ends; unsaved steps are kept",
};
enum { KEYS = sizeof keys / sizeof keys[0] };

static void put_keys(struct column *column)
{
    uint32_t i;
    if (rows_left(column, 0) < KEYS) return;
    column->row = column->rows - KEYS;
    for (i = 0; i < KEYS; i++) put_line(column, faint, "%s", keys[i]);
}

void paint_panel(const struct canvas *canvas, int32_t left, uint32_t size)
{
    struct column column = { canvas, 0, size, 0, 0 };
    const struct bench *bench = &scene.bench;
    const char *slash = strrchr(scene.path, '/');
    uint32_t told = scene.told_count == 0 ? 0 : scene.told_count + 1 < 8 ? scene.told_count + 1 : 8, rows, history;
    canvas_fill(canvas, left, 0, canvas->width, canvas->height, ground);
    column.left = left + (int32_t)(EDGE * size);
    column.rows = (canvas->height / size - EDGE) / ROW;
    put_line(&column, bright, "%s  %lu x %lu, planes %lu, objects %lu, clear %lu", slash == NULL ? scene.path : slash + 1, (unsigned long)bench->width,
             (unsigned long)bench->height, (unsigned long)bench->planes, (unsigned long)bench->objects, (unsigned long)bench->clear);
    put_planes(&column);
    column.row++;
    history = kg_session_steps(bench->session) < 12 ? kg_session_steps(bench->session) : 12;
    rows = rows_left(&column, history + told + 6);
    put_objects(&column, rows < LEAST_ROWS ? (uint32_t)LEAST_ROWS : rows);
    column.row++;
    put_history(&column, rows_left(&column, told + 2));
    column.row++;
    put_told(&column);
    put_keys(&column);
}

/* What was done or refused last, and where the pointer is. */
void paint_status(const struct canvas *canvas, int32_t top, uint32_t width, uint32_t size)
{
    char where[96] = "F1: keys";
    canvas_fill(canvas, 0, top, width, canvas->height, ground);
    if (scene.over)
        snprintf(where, sizeof where, "F1: keys   %ld %ld   strip %ld %ld   scale %lu", (long)scene.x, (long)scene.y, (long)(scene.x / 8),
                 (long)(scene.y / 8), (unsigned long)scene.view.scale);
    text_put(canvas, (int32_t)(EDGE * size), top + (int32_t)(2 * size), size, scene.refused ? wrong : bright, scene.message);
    text_put(canvas, (int32_t)(EDGE * size), top + (int32_t)((2 + CELL_HEIGHT) * size), size, faint, where);
}

void paint_help(const struct canvas *canvas, uint32_t size)
{
    uint32_t i;
    canvas_fill(canvas, 0, 0, (PANEL_COLUMNS * CELL_WIDTH + 2 * EDGE) * size, (ROW * KEYS + 2 * EDGE) * size, ground);
    for (i = 0; i < KEYS; i++) text_put(canvas, (int32_t)(EDGE * size), (int32_t)((EDGE + ROW * i) * size), size, ink, keys[i]);
}
