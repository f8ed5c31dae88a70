/* The picture of a room on the bench, with what is laid over it. */
#include "view.h"

#include "text.h"

#include <stdio.h>
#include <string.h>

enum { STRIP = 8, TINT = 2, FAINT = 1 };

static const struct colour yellow = { { 255, 255, 0 } }, white = { { 255, 255, 255 } }, black = { { 0, 0, 0 } };

struct colour view_plane_colour(uint32_t plane)
{
    static const struct colour colours[KG_MAX_PLANES] = { { { 255, 40, 40 } }, { { 40, 110, 255 } }, { { 40, 220, 60 } }, { { 210, 60, 255 } } };
    return colours[(plane - 1) % KG_MAX_PLANES];
}

static int hides(const struct bench *bench, uint32_t plane, uint32_t x, uint32_t y)
{
    return kg_value(kg_hidden(bench->masks, bench->masks_size, bench->width, bench->height, bench->planes, plane, x, y)) != 0;
}

/* Half the tint, half the picture, where an actor of that clip level is hidden: red whatever the plane, as one is shown at a time. */
static void tint_plane(const struct bench *bench, const struct canvas *picture, uint32_t plane)
{
    uint32_t x, y;
    for (y = 0; y < bench->height; y++) {
        for (x = 0; x < bench->width; x++) {
            if (hides(bench, plane, x, y)) canvas_mix(picture, (int32_t)x, (int32_t)y, view_plane_colour(1), TINT);
        }
    }
}

/* The plane whose tint the pixel has, 0 where none hides it: where several do, their colours take turns in slanting stripes, so that each is seen. */
static uint32_t plane_at(const struct bench *bench, uint32_t x, uint32_t y)
{
    uint32_t hiding[KG_MAX_PLANES], count = 0, plane;
    for (plane = 1; plane <= bench->planes; plane++) {
        if (hides(bench, plane, x, y)) hiding[count++] = plane;
    }
    return count == 0 ? 0 : hiding[(x + y) / 2 % count];
}

static void tint_planes(const struct bench *bench, const struct canvas *picture)
{
    uint32_t x, y, plane;
    for (y = 0; y < bench->height; y++) {
        for (x = 0; x < bench->width; x++) {
            plane = plane_at(bench, x, y);
            if (plane != 0) canvas_mix(picture, (int32_t)x, (int32_t)y, view_plane_colour(plane), TINT);
        }
    }
}

/* A dark pixel becomes lighter, a light one darker, so that the line is seen on both. */
static void paint_grid(const struct canvas *picture)
{
    uint32_t x, y;
    for (y = 0; y < picture->height; y++) {
        for (x = 0; x < picture->width; x += y % STRIP == 0 ? 1 : STRIP) {
            const uint8_t *at = canvas_at(picture, (int32_t)x, (int32_t)y);
            canvas_mix(picture, (int32_t)x, (int32_t)y, at[0] + at[1] + at[2] < 3 * 128 ? white : black, FAINT);
        }
    }
}

static void paint_boxes(const struct bench *bench, const struct canvas *picture)
{
    struct box box;
    uint32_t object;
    for (object = 1; object <= bench->objects; object++) {
        if (!bench_box(bench, object, &box)) continue;
        canvas_outline(picture, (int32_t)box.left, (int32_t)box.top, box.width, box.height, yellow);
    }
}

void view_paint(const struct view *view, const struct bench *bench, const uint8_t *pixels, const struct palette *palette,
                const struct canvas *picture)
{
    size_t i;
    for (i = 0; i < bench->pixels_size; i++) memcpy(picture->rgb + 3 * i, palette->rgb + 3 * pixels[i], 3);
    if (view->plane == ALL_PLANES) tint_planes(bench, picture);
    else if (view->plane != 0) tint_plane(bench, picture, view->plane);
    if (view->grid) paint_grid(picture);
    if (view->boxes) paint_boxes(bench, picture);
}

/* Where a text of that length begins so that it ends inside: at `wanted`, or as far before it as needed. */
static int32_t kept(uint32_t wanted, uint32_t length, uint32_t size)
{
    return (int32_t)(wanted + length <= size ? wanted : length <= size ? size - length : 0);
}

/* The object's number and name at the upper left corner of its box. A text that is wider than the picture is cut. */
static void put_name(const struct view *view, const struct bench *bench, uint32_t object, const struct canvas *canvas, int32_t left, int32_t top)
{
    char name[NAME_SIZE], text[NAME_SIZE + 16];
    struct box box;
    uint32_t size = (view->scale + 1) / 2, wide = view->scale * bench->width, high = view->scale * bench->height, cells;
    if (!bench_box(bench, object, &box)) return;
    bench_name(bench, object, name);
    snprintf(text, sizeof text, "%lu%s%s", (unsigned long)object, name[0] == '\0' ? "" : " ", name);
    if (strlen(text) > wide / (CELL_WIDTH * size)) text[wide / (CELL_WIDTH * size)] = '\0';
    cells = (uint32_t)strlen(text);
    text_put_edged(canvas, left + kept(view->scale * (box.left + 1), cells * CELL_WIDTH * size, wide),
                   top + kept(view->scale * (box.top + 1), CELL_HEIGHT * size, high), size, white, text);
}

void view_put(const struct view *view, const struct bench *bench, const struct canvas *picture, const struct canvas *canvas, int32_t left, int32_t top)
{
    uint32_t object;
    canvas_put(canvas, left, top, picture, view->scale);
    for (object = 1; view->names && object <= bench->objects; object++) put_name(view, bench, object, canvas, left, top);
}
