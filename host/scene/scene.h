/* What the window's files share: what is on the bench, what is looked at, and what each file does with it. Of the room there is no second
 * model: every change is a call of the library, and after it the pixels and masks that were lent are shown. */
#ifndef SCENE_H
#define SCENE_H

#include "bench.h"
#include "palette.h"
#include "view.h"

enum { MESSAGE_SIZE = 200, PATH_SIZE = 4096, MOST_TOLD = KG_MAX_HISTORY, LARGEST = 6 };

/* A move of an object by the hand or by the arrow keys: it is one step, which is replaced while the move goes on. */
struct move {
    uint32_t object, state;     /* object 0: nothing moves */
    int32_t a, b;               /* the strip position now */
    int32_t start_a, start_b;   /* where the object was before */
    int32_t grip_x, grip_y;     /* the hand's place in the box, in pixels */
    int stepped;                /* the history's newest step is this move's */
};

/* The actor that follows the pointer. */
struct actor {
    int on;
    uint32_t width, height, clip;
    const uint8_t *picture; /* width * height bytes */
};

struct scene {
    const char *path, *palette_path;                       /* the room's file, and the palette's, or NULL */
    char list[PATH_SIZE], picture[PATH_SIZE], kept[PATH_SIZE]; /* where Ctrl-S, Ctrl-P and an end with unsaved steps write */
    struct bench bench;
    struct palette palette;
    uint8_t flags[KG_MAX_OBJECTS]; /* as kg_object_at has them: not 0 where a click passes an object over */
    uint16_t states[KG_MAX_OBJECTS + 1]; /* bit s: state s of that object can be drawn */
    uint32_t asked;                /* of so many objects the states are known */
    uint32_t selected;             /* 0: none */
    struct move drag, arrows;
    struct actor actor;
    struct view view;
    int32_t x, y;                  /* the pointer, in the room's pixels */
    int over;                      /* the pointer is over the room */
    uint8_t saved[KG_SESSION_SIZE]; /* the session when its list was read or written last */
    char message[MESSAGE_SIZE];
    int refused;                   /* the message tells a refusal */
    char told[MOST_TOLD][MESSAGE_SIZE]; /* steps that were refused when the room was opened or loaded again */
    uint32_t told_count;
    int help, panel, changed, ended; /* changed: the window is to be painted anew */
};

extern struct scene scene;

/* steps.c: the calls that a person makes. */
void tell(int refused, const char *format, ...);
void select_object(uint32_t object);
void select_next(int back);
void select_at(int32_t x, int32_t y);
void draw_state(uint32_t state);
void hide_selected(void);
void take_back(void);
void move_selected(int32_t right, int32_t down);
void drag_begin(int32_t x, int32_t y);
void drag_to(int32_t x, int32_t y);
void drag_end(void);
void toggle_flag(void);

/* room.c: the room's file, its steps on it, and the states that can be drawn. */
void open_room(const char *records, const char *names);
void look_at_file(void);
int ask_states(void);

/* keep.c: the list of steps and the picture as files; unsaved steps are kept at every end. */
int is_unsaved(void);
void mark_saved(void);
void save_list(void);
void save_picture(void);
void keep_list(void);
void keep_at_the_end(void); /* for atexit */

/* actor.c */
void take_actor(const char *cast_path);
const uint8_t *frame_with_actor(void);

/* window.c: opened, painted, its places. */
void open_window(uint32_t scale);
void close_window(void);
void paint_window(void);
void set_scale(uint32_t scale);
void scroll_by(int32_t right, int32_t down);
void scroll_wheel(int32_t right, int32_t down);
void size_window(uint32_t width, uint32_t height);
void change_text(void);
void show_selected(void);
void window_to_room(int32_t wx, int32_t wy, int32_t *x, int32_t *y);
void room_to_window(int32_t x, int32_t y, int32_t *wx, int32_t *wy);
int is_over_room(int32_t wx, int32_t wy);
const char *write_window(const char *path);

/* panel.c */
enum { PANEL_COLUMNS = 60 };
void paint_panel(const struct canvas *canvas, int32_t left, uint32_t size);
void paint_status(const struct canvas *canvas, int32_t top, uint32_t width, uint32_t size);
void paint_help(const struct canvas *canvas, uint32_t size);

/* scene.c: the window until it is closed, or a signal comes. */
void run_until_ended(void);

/* input.c: what SDL tells of keys and pointer. */
void take_events(int wait);

/* script.c: the lines of a file as keys and pointer moves. */
void play_script(const char *path);

#endif
