/* The window: the room at its scale, the panel beside it, a line of state below. All of it is painted here into one canvas, which SDL puts on
 * the screen, so that what a script writes as the window's picture is what a person sees. */
#include "message.h"
#include "output.h"
#include "scene.h"
#include "text.h"

#include <SDL2/SDL.h>
#include <stdlib.h>
#include <string.h>

enum { LEAST_WIDTH = 320, LEAST_HEIGHT = 200, PANEL_HEIGHT = 470, MARGIN = 4 };

static SDL_Window *window;
static struct canvas canvas;
static uint8_t own_size[3 * KG_MAX_PIXELS];
static uint32_t text_size = 1;
static int32_t scroll_x, scroll_y; /* the window's pixels of the scaled room that lie left of the window and above it */

static const struct colour ground = { { 28, 28, 34 } }, white = { { 255, 255, 255 } }, black = { { 0, 0, 0 } };

static uint32_t panel_width(void)
{
    return scene.panel ? (PANEL_COLUMNS * CELL_WIDTH + 2 * MARGIN) * text_size : 0;
}

static uint32_t status_height(void)
{
    return (2 * CELL_HEIGHT + MARGIN) * text_size;
}

/* The part of the window that shows the room. */
static uint32_t room_width(void)
{
    return canvas.width > panel_width() ? canvas.width - panel_width() : 0;
}

static uint32_t room_height(void)
{
    return canvas.height > status_height() ? canvas.height - status_height() : 0;
}

static int32_t limited(int32_t place, uint32_t whole, uint32_t part)
{
    int32_t most = whole > part ? (int32_t)(whole - part) : 0;
    return place < 0 ? 0 : place > most ? most : place;
}

void scroll_by(int32_t right, int32_t down)
{
    scroll_x = limited(scroll_x + right, scene.bench.width * scene.view.scale, room_width());
    scroll_y = limited(scroll_y + down, scene.bench.height * scene.view.scale, room_height());
    scene.changed = 1;
}

/* A wheel that turns up and down goes along a room whose whole height is seen. */
void scroll_wheel(int32_t right, int32_t down)
{
    if (scene.bench.height * scene.view.scale <= room_height()) scroll_by(right + down, 0);
    else scroll_by(right, down);
}

/* The point in the middle of what is seen stays there. */
void set_scale(uint32_t scale)
{
    int32_t x, y, wx, wy;
    if (scale < 1 || scale > LARGEST) return;
    window_to_room((int32_t)room_width() / 2, (int32_t)room_height() / 2, &x, &y);
    scene.view.scale = scale;
    room_to_window(x, y, &wx, &wy);
    scroll_by(wx - (int32_t)room_width() / 2, wy - (int32_t)room_height() / 2);
    tell(0, "scale %lu", (unsigned long)scale);
}

/* Scrolls as far as the selected object's box asks. */
void show_selected(void)
{
    struct box box;
    int32_t left, top, right, bottom, across = 0, down = 0;
    if (scene.selected == 0 || !bench_box(&scene.bench, scene.selected, &box)) return;
    room_to_window((int32_t)box.left, (int32_t)box.top, &left, &top);
    room_to_window((int32_t)(box.left + box.width), (int32_t)(box.top + box.height), &right, &bottom);
    if (right > (int32_t)room_width()) across = right - (int32_t)room_width();
    if (left - across < 0) across = left;
    if (bottom > (int32_t)room_height()) down = bottom - (int32_t)room_height();
    if (top - down < 0) down = top;
    scroll_by(across, down);
}

/* Rounded down, for a point left of the room or above it too. */
static int32_t unscaled(int32_t place)
{
    int32_t scale = (int32_t)scene.view.scale;
    return place >= 0 ? place / scale : -((scale - 1 - place) / scale);
}

void window_to_room(int32_t wx, int32_t wy, int32_t *x, int32_t *y)
{
    *x = unscaled(wx + scroll_x);
    *y = unscaled(wy + scroll_y);
}

void room_to_window(int32_t x, int32_t y, int32_t *wx, int32_t *wy)
{
    *wx = x * (int32_t)scene.view.scale - scroll_x;
    *wy = y * (int32_t)scene.view.scale - scroll_y;
}

int is_over_room(int32_t wx, int32_t wy)
{
    int32_t x, y;
    window_to_room(wx, wy, &x, &y);
    return wx >= 0 && wy >= 0 && (uint32_t)wx < room_width() && (uint32_t)wy < room_height() && x >= 0 && y >= 0 && (uint32_t)x < scene.bench.width
           && (uint32_t)y < scene.bench.height;
}

/* The selected object's box, in two colours so that it is seen on any picture. */
static void paint_selected(const struct canvas *part)
{
    struct box box;
    int32_t left, top;
    uint32_t scale = scene.view.scale;
    if (scene.selected == 0 || !bench_box(&scene.bench, scene.selected, &box)) return;
    room_to_window((int32_t)box.left, (int32_t)box.top, &left, &top);
    canvas_outline(part, left - 1, top - 1, box.width * scale + 2, box.height * scale + 2, white);
    canvas_outline(part, left - 2, top - 2, box.width * scale + 4, box.height * scale + 4, black);
}

static void paint_room(void)
{
    struct canvas picture = { own_size, 0, 0 };
    picture.width = scene.bench.width;
    picture.height = scene.bench.height;
    view_paint(&scene.view, &scene.bench, frame_with_actor(), &scene.palette, &picture);
    view_put(&scene.view, &scene.bench, &picture, &canvas, -scroll_x, -scroll_y);
    paint_selected(&canvas);
}

static void paint_canvas(void)
{
    canvas_fill(&canvas, 0, 0, canvas.width, canvas.height, ground);
    paint_room();
    paint_status(&canvas, (int32_t)room_height(), room_width(), text_size);
    if (scene.panel) paint_panel(&canvas, (int32_t)room_width(), text_size);
    if (scene.help) paint_help(&canvas, text_size);
}

/* The canvas has the window's size. */
static void take_size(void)
{
    int width, height;
    uint8_t *rgb;
    SDL_GetWindowSize(window, &width, &height);
    if ((uint32_t)width == canvas.width && (uint32_t)height == canvas.height) return;
    rgb = (uint8_t *)realloc(canvas.rgb, 3 * (size_t)width * (size_t)height);
    if (rgb == NULL) stop(1, "no memory for a window of %d by %d", width, height);
    canvas.rgb = rgb;
    canvas.width = (uint32_t)width;
    canvas.height = (uint32_t)height;
    scroll_by(0, 0);
}

static void name_window(void)
{
    char title[PATH_SIZE];
    const char *slash = strrchr(scene.path, '/');
    SDL_snprintf(title, sizeof title, "%s%s - kildegrom scene", is_unsaved() ? "*" : "", slash == NULL ? scene.path : slash + 1);
    SDL_SetWindowTitle(window, title);
}

void paint_window(void)
{
    SDL_Surface *painted, *shown;
    scene.changed = 0;
    take_size();
    paint_canvas();
    painted = SDL_CreateRGBSurfaceWithFormatFrom(canvas.rgb, (int)canvas.width, (int)canvas.height, 24, 3 * (int)canvas.width, SDL_PIXELFORMAT_RGB24);
    shown = SDL_GetWindowSurface(window); /* the first time SDL may open another window in the place of this one; the one that stays gets the name */
    name_window();
    if (painted != NULL && shown != NULL) SDL_BlitSurface(painted, NULL, shown, NULL);
    SDL_FreeSurface(painted);
    SDL_UpdateWindowSurface(window);
    scene.changed = 0; /* painting may tell something; it is told with the next change */
}

const char *write_window(const char *path)
{
    paint_window();
    return write_picture(path, &canvas);
}

/* The largest scale up to 4 at which room, panel and status fit on the screen, and at least 1; larger text on a large screen. */
static uint32_t fitting_scale(const SDL_Rect *screen)
{
    uint32_t scale = 4, width = scene.bench.width, height = scene.bench.height;
    text_size = screen->w >= 1900 ? 2 : 1;
    while (scale > 1 && (width * scale + panel_width() > (uint32_t)screen->w || height * scale + status_height() > (uint32_t)screen->h)) scale--;
    return scale;
}

static uint32_t least(uint32_t a, uint32_t b)
{
    return a < b ? a : b;
}

static uint32_t most(uint32_t a, uint32_t b)
{
    return a > b ? a : b;
}

static void no_window(const char *why)
{
    stop(1, "no window can be opened: %s (show makes a picture without one)", why);
}

/* Where there is no display, SDL may take a driver that nobody sees; that counts as none unless it was asked for. */
static void begin_video(void)
{
    const char *driver;
    SDL_SetHint(SDL_HINT_NO_SIGNAL_HANDLERS, "1");
    SDL_SetHint(SDL_HINT_VIDEO_ALLOW_SCREENSAVER, "1");
    if (SDL_Init(SDL_INIT_VIDEO) != 0) no_window(SDL_GetError());
    driver = SDL_GetCurrentVideoDriver();
    if (getenv("SDL_VIDEODRIVER") == NULL && (driver == NULL || strcmp(driver, "offscreen") == 0 || strcmp(driver, "dummy") == 0))
        no_window("no display is there");
}

void open_window(uint32_t scale)
{
    SDL_Rect screen = { 0, 0, 1024, 768 };
    uint32_t width, height, fitting;
    begin_video();
    SDL_GetDisplayUsableBounds(0, &screen);
    fitting = fitting_scale(&screen);
    scene.view.scale = scale != 0 ? scale : fitting;
    width = scene.bench.width * scene.view.scale + panel_width();
    height = most(scene.bench.height * scene.view.scale + status_height(), PANEL_HEIGHT * text_size);
    window = SDL_CreateWindow("kildegrom scene", SDL_WINDOWPOS_CENTERED, SDL_WINDOWPOS_CENTERED, (int)least(width, (uint32_t)screen.w),
                              (int)least(height, (uint32_t)screen.h), SDL_WINDOW_RESIZABLE);
    if (window == NULL) no_window(SDL_GetError());
    SDL_SetWindowMinimumSize(window, LEAST_WIDTH, LEAST_HEIGHT);
    SDL_StartTextInput();
    take_size();
}

void size_window(uint32_t width, uint32_t height)
{
    SDL_SetWindowSize(window, (int)width, (int)height);
    take_size();
    scene.changed = 1;
}

void change_text(void)
{
    text_size = text_size == 1 ? 2 : 1;
    scroll_by(0, 0);
}

void close_window(void)
{
    if (window != NULL) SDL_DestroyWindow(window);
    window = NULL;
    SDL_Quit();
    free(canvas.rgb);
    canvas.rgb = NULL;
}
