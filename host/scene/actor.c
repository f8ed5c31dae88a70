/* The actor that follows the pointer, so that one sees what hides it: a figure of the program's own, or the first of a cast. */
#include "cast.h"
#include "message.h"
#include "scene.h"

#include <string.h>

enum { FIGURE_WIDTH = 16, FIGURE_HEIGHT = 40, MIDDLE = FIGURE_WIDTH / 2 };
enum { EDGE, HAIR, SKIN, COAT, BELT, TROUSERS, BOOTS, COLOURS };

/* The figure from head to feet: so many rows of a colour, `half` pixels to each side of the middle, of which `gap` are left out. */
static const struct { uint8_t rows, half, gap, colour; } parts[] = {
    { 1, 3, 0, HAIR }, { 1, 4, 0, HAIR }, { 2, 5, 0, HAIR }, { 5, 5, 0, SKIN }, { 1, 4, 0, SKIN }, { 1, 3, 0, SKIN }, { 1, 2, 0, SKIN },
    { 1, 5, 0, COAT }, { 3, 6, 0, COAT }, { 7, 7, 0, COAT }, { 1, 6, 0, COAT }, { 2, 5, 0, BELT }, { 2, 5, 0, TROUSERS }, { 8, 5, 1, TROUSERS },
    { 1, 5, 1, BOOTS }, { 3, 6, 1, BOOTS },
};

static const uint8_t shades[COLOURS][3] = {
    { 20, 16, 24 }, { 110, 62, 28 }, { 232, 176, 136 }, { 44, 96, 176 }, { 206, 166, 56 }, { 92, 82, 92 }, { 66, 44, 30 },
};

static uint8_t figure[FIGURE_WIDTH * FIGURE_HEIGHT], frame[KG_MAX_PIXELS];
static int is_own;

/* Of each side the outermost and, at a gap, the innermost pixel is the edge's. */
static void paint_row(uint32_t y, uint32_t half, uint32_t gap, const uint8_t *colours, uint32_t colour)
{
    uint32_t i;
    for (i = gap; i < half; i++) {
        uint8_t value = colours[i == half - 1 || (gap > 0 && i == gap) ? (uint32_t)EDGE : colour];
        figure[y * FIGURE_WIDTH + MIDDLE + i] = value;
        figure[y * FIGURE_WIDTH + MIDDLE - 1 - i] = value;
    }
}

static void paint_part(uint32_t part, uint32_t top, const uint8_t *colours)
{
    uint32_t row;
    for (row = 0; row < parts[part].rows; row++) paint_row(top + row, parts[part].half, parts[part].gap, colours, parts[part].colour);
}

/* In colours of the palette, none of which is the room's transparent one. */
static void paint_figure(void)
{
    uint8_t colours[COLOURS], clear = scene.bench.clear;
    uint32_t i, y = 0;
    memset(figure, clear, sizeof figure);
    for (i = 0; i < COLOURS; i++) colours[i] = nearest_colour(&scene.palette, shades[i][0], shades[i][1], shades[i][2], clear);
    for (i = 0; i < sizeof parts / sizeof parts[0]; y += parts[i++].rows) paint_part(i, y, colours);
    for (i = 0; i < 2; i++) figure[6 * FIGURE_WIDTH + MIDDLE - 3 + 5 * i] = colours[EDGE]; /* the eyes */
}

void take_actor(const char *cast_path)
{
    struct actor *actor = &scene.actor;
    is_own = cast_path == NULL;
    actor->clip = 1;
    actor->width = FIGURE_WIDTH;
    actor->height = FIGURE_HEIGHT;
    actor->picture = figure;
    if (is_own) return;
    take_cast(cast_path);
    if (cast.count == 0) stop(2, "the cast has no actor: %s", cast_path);
    actor->width = cast.actors[0].width;
    actor->height = cast.actors[0].height;
    actor->clip = cast.actors[0].clip;
    if (cast.actors[0].start > cast.pictures_size || (uint64_t)actor->width * actor->height > cast.pictures_size - cast.actors[0].start)
        stop(2, "the first actor's picture passes the end of the pictures: %s", cast_path);
    actor->picture = cast.pictures + cast.actors[0].start;
}

/* The room's pixels, with the actor's feet at the pointer where it is on and over the room. */
const uint8_t *frame_with_actor(void)
{
    const struct bench *bench = &scene.bench;
    const struct actor *actor = &scene.actor;
    uint32_t number;
    if (!actor->on || !scene.over) return bench->pixels;
    if (is_own) paint_figure();
    memcpy(frame, bench->pixels, bench->pixels_size);
    number = kg_stamp(frame, bench->pixels_size, bench->masks, bench->masks_size, actor->picture, (size_t)actor->width * actor->height, bench->width,
                      bench->height, bench->planes, actor->width, actor->height, scene.x - (int32_t)(actor->width / 2),
                      scene.y - (int32_t)actor->height + 1, actor->clip, bench->clear);
    if (number != KG_ACCEPTED) tell(1, "the actor is refused %lu: %s", (unsigned long)number, kg_refusal_text(number));
    return frame;
}
