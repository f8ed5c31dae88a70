/* The picture of a room on the bench, with what show and scene lay over it. Both make it here, so that a picture of the window is one of
 * ./show. */
#ifndef VIEW_H
#define VIEW_H

#include "bench.h"
#include "canvas.h"

enum { MAX_SCALE = 9, ALL_PLANES = 255 };

struct view {
    uint32_t plane; /* 0: no tint; 1 to 4: what that plane hides; ALL_PLANES: each plane in a colour of its own */
    int boxes, grid, names;
    uint32_t scale; /* 1 to MAX_SCALE */
};

/* The room in its own size: `pixels` (the bench's, or a frame with actors) in the palette's colours, then tint, grid and boxes. `picture` has the
 * room's size. */
void view_paint(const struct view *view, const struct bench *bench, const uint8_t *pixels, const struct palette *palette,
                const struct canvas *picture);

/* The colour of a plane's tint, 1 to 4. */
struct colour view_plane_colour(uint32_t plane);

/* The picture at the view's scale, its corner at (left, top) of a canvas, and over it the names where they are on. */
void view_put(const struct view *view, const struct bench *bench, const struct canvas *picture, const struct canvas *canvas, int32_t left, int32_t top);

#endif
