/* Keys and pointer. A character counts as it is typed, whatever keys a keyboard needs for it; other keys by their names. */
#include "scene.h"

#include <SDL2/SDL.h>
#include <ctype.h>

enum { WHEEL = 32 };

/* What is held (Shift, Ctrl) after the keys that were taken so far. SDL_GetModState knows the keys already that still wait in SDL's queue: where the
 * window is late, a press would count as one without the Shift that was let go after it. */
static Uint16 held;

static void next_plane(void)
{
    uint32_t *plane = &scene.view.plane, planes = scene.bench.planes;
    if (planes == 0) tell(1, "the room has no planes");
    else if (*plane == ALL_PLANES) *plane = 0;
    else *plane = *plane < planes ? *plane + 1 : planes > 1 ? (uint32_t)ALL_PLANES : 0;
    scene.changed = 1;
}

static void change_clip(int32_t by)
{
    int32_t clip = (int32_t)scene.actor.clip + by;
    if (clip >= 0 && clip <= KG_MAX_PLANES) scene.actor.clip = (uint32_t)clip;
    tell(0, "the actor's clip level: %lu", (unsigned long)scene.actor.clip);
}

static void toggle(int *what)
{
    *what = !*what;
    scene.changed = 1;
}

static void on_character(int character)
{
    switch (toupper(character)) {
    case '1': case '2': case '3': case '4': case '5': case '6': case '7': case '8': case '9': draw_state((uint32_t)(character - '0')); break;
    case 'H': hide_selected(); break;
    case 'U': toggle_flag(); break;
    case 'P': next_plane(); break;
    case 'B': toggle(&scene.view.boxes); break;
    case 'G': toggle(&scene.view.grid); break;
    case 'N': toggle(&scene.view.names); break;
    case 'A': toggle(&scene.actor.on); break;
    case '[': change_clip(-1); break;
    case ']': change_clip(1); break;
    case '+': case '=': set_scale(scene.view.scale + 1); break;
    case '-': set_scale(scene.view.scale - 1); break;
    case 'I': toggle(&scene.panel); break;
    case 'T': change_text(); break;
    case '?': toggle(&scene.help); break;
    default: break;
    }
}

static void on_control(SDL_Keycode key)
{
    switch (key) {
    case SDLK_z: take_back(); break;
    case SDLK_s: save_list(); break;
    case SDLK_p: save_picture(); break;
    case SDLK_q: scene.ended = 1; break;
    default: break;
    }
}

static void on_key(SDL_Keycode key, int with_shift)
{
    switch (key) {
    case SDLK_TAB: select_next(with_shift); break;
    case SDLK_BACKSPACE: take_back(); break;
    case SDLK_LEFT: move_selected(-1, 0); break;
    case SDLK_RIGHT: move_selected(1, 0); break;
    case SDLK_UP: move_selected(0, -1); break;
    case SDLK_DOWN: move_selected(0, 1); break;
    case SDLK_F1: toggle(&scene.help); break;
    case SDLK_ESCAPE:
        scene.help = 0;
        select_object(0);
        break;
    default: break;
    }
}

/* Where the pointer is now; a dragged object follows it over the room's edges too. */
static void on_pointer(int32_t wx, int32_t wy)
{
    window_to_room(wx, wy, &scene.x, &scene.y);
    scene.over = is_over_room(wx, wy);
    scene.changed = 1;
    drag_to(scene.x, scene.y);
}

/* With Shift the hand takes the selected object, whatever lies under the point. It may leave the window while it holds it. */
static void on_press(const SDL_MouseButtonEvent *button)
{
    if (button->button != SDL_BUTTON_LEFT) return;
    on_pointer(button->x, button->y);
    if (!scene.over) return;
    if ((held & KMOD_SHIFT) == 0) select_at(scene.x, scene.y);
    drag_begin(scene.x, scene.y);
    SDL_CaptureMouse(SDL_TRUE);
}

static void on_release(const SDL_MouseButtonEvent *button)
{
    if (button->button != SDL_BUTTON_LEFT) return;
    drag_end();
    SDL_CaptureMouse(SDL_FALSE);
}

static void on_wheel(const SDL_MouseWheelEvent *wheel)
{
    if ((held & KMOD_CTRL) != 0) set_scale(wheel->y > 0 ? scene.view.scale + 1 : scene.view.scale - 1);
    else if ((held & KMOD_SHIFT) != 0) scroll_by(-WHEEL * wheel->y, 0);
    else scroll_wheel(WHEEL * wheel->x, -WHEEL * wheel->y);
}

static void on_key_down(const SDL_Keysym *key)
{
    held = key->mod;
    if ((key->mod & KMOD_CTRL) != 0) on_control(key->sym);
    else on_key(key->sym, (key->mod & KMOD_SHIFT) != 0);
}

static void on_event(const SDL_Event *event)
{
    switch (event->type) {
    case SDL_QUIT: scene.ended = 1; break;
    case SDL_TEXTINPUT: on_character((unsigned char)event->text.text[0]); break;
    case SDL_KEYDOWN: on_key_down(&event->key.keysym); break;
    case SDL_KEYUP: held = event->key.keysym.mod; break;
    case SDL_MOUSEMOTION: on_pointer(event->motion.x, event->motion.y); break;
    case SDL_MOUSEBUTTONDOWN: on_press(&event->button); break;
    case SDL_MOUSEBUTTONUP: on_release(&event->button); break;
    case SDL_MOUSEWHEEL: on_wheel(&event->wheel); break;
    case SDL_WINDOWEVENT:
        if (event->window.event == SDL_WINDOWEVENT_LEAVE) scene.over = 0;
        scene.changed = 1;
        break;
    default: break;
    }
}

/* All events that have come; where there are none, waits so many milliseconds for one. */
void take_events(int wait)
{
    SDL_Event event;
    if (wait > 0 && SDL_WaitEventTimeout(&event, wait)) on_event(&event);
    while (SDL_PollEvent(&event)) on_event(&event);
}
