/* What ./show alone does not try of host/programs: pictures that pass a canvas' edges on all sides, texts outside, the nearest colour, the lines of
 * calls. host/check-pictures compiles and starts it, with sanitizers. */
#include "calls.h"
#include "text.h"

#include <assert.h>
#include <string.h>

const char program[] = "parts";

static int red_at(const struct canvas *canvas, int32_t x, int32_t y) { return canvas_at(canvas, x, y)[0]; }

/* The pixel (x, y) of the picture has red 10 * x + y. */
static void puts_pictures(void)
{
    static uint8_t small[3 * 6 * 4], large[3 * 9 * 7];
    struct canvas picture = { small, 6, 4 }, canvas = { large, 9, 7 };
    int32_t left, top, x, y, i;
    for (i = 0; i < 24; i++) small[3 * i] = (uint8_t)(10 * (i % 6) + i / 6);
    for (i = 0; i < 25 * 21; i++) {
        left = i % 25 - 14;
        top = i / 25 - 10;
        memset(large, 255, sizeof large);
        canvas_put(&canvas, left, top, &picture, 2);
        for (y = 0; y < 7; y++) {
            for (x = 0; x < 9; x++) {
                int inside = x >= left && x < left + 12 && y >= top && y < top + 8;
                assert(red_at(&canvas, x, y) == (inside ? 10 * ((x - left) / 2) + (y - top) / 2 : 255));
            }
        }
    }
}

static void stays_inside(void)
{
    static uint8_t rgb[3 * 4 * 4];
    static const struct colour white = { { 255, 255, 255 } };
    struct canvas canvas = { rgb, 4, 4 };
    text_put_edged(&canvas, -1000, -1000, 9, white, "outside");
    text_put_edged(&canvas, 4, 4, 9, white, "outside");
    canvas_fill(&canvas, INT32_MIN, INT32_MIN, 5, 5, white);
    canvas_fill(&canvas, INT32_MAX, 0, UINT32_MAX, 1, white);
    canvas_outline(&canvas, -1, -1, 6, 6, white);
    canvas_dot(&canvas, 4, 0, white);
    canvas_mix(&canvas, 0, -1, white, 4);
    assert(red_at(&canvas, 0, 0) == 0 && red_at(&canvas, 3, 3) == 0);
    canvas_fill(&canvas, -1, -1, UINT32_MAX, UINT32_MAX, white);
    assert(red_at(&canvas, 0, 0) == 255 && red_at(&canvas, 3, 3) == 255);
}

static void finds_colours(void)
{
    struct palette greys;
    take_palette(&greys, NULL, (const uint8_t *)"", 0);
    assert(nearest_colour(&greys, 90, 100, 110, 7) == 100);
    assert(nearest_colour(&greys, 100, 100, 100, 100) == 99);
    assert(nearest_colour(&greys, 0, 0, 0, 0) == 1);
}

static void writes_lines(void)
{
    static const char *const lines[] = { "hide 7", "draw 1 2", "draw 4294967295 4294967295 at 4294967295 4294967295", "back" };
    static const struct call calls[] = { { 0, 7, 0, 0, 0 }, { 1, 1, 2, 0, 0 }, { 2, UINT32_MAX, UINT32_MAX, UINT32_MAX, UINT32_MAX }, { 3, 0, 0, 0, 0 } };
    char line[CALL_LINE];
    int i;
    for (i = 0; i < 4; i++) {
        call_line(calls[i], line);
        assert(strcmp(line, lines[i]) == 0);
    }
}

int main(void)
{
    puts_pictures();
    stays_inside();
    finds_colours();
    writes_lines();
    return 0;
}
