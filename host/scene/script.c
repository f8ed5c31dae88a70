/* A session from a file, for tests: its lines are keys and pointer moves, which go to SDL's queue and come from there as a person's do.
 *
 *     key KEY...              keys one after the other: a character (1, h, [), or a name (Tab, Left, Ctrl+Z, Shift+Tab, Backspace)
 *     move X Y                the pointer goes to the room's pixel (X, Y); it may lie outside
 *     click X Y               moves there, presses and lets go
 *     drag X Y X2 Y2          presses at (X, Y), moves to (X2, Y2) pixel by pixel and lets go; with `Shift+drag` Shift is held
 *     replace FILE            the room's file gets FILE's bytes, as from a painting program
 *     save FILE, picture FILE from now on Ctrl-S, Ctrl-P write there
 *     size W H                the window gets this size
 *     window FILE             the window's own picture
 *     expect TEXT             the line of state has this text, else the program ends with status 1
 *     wait                    goes on as a window until it is ended
 *
 * Blank lines, and lines that begin with `#`, are passed over. */
#include "files.h"
#include "message.h"
#include "scene.h"

#include <SDL2/SDL.h>
#include <errno.h>
#include <stdio.h>
#include <stdlib.h>
#include <string.h>

enum { SCRIPT_LINE = 1024, MOST_NUMBER = 8192 };

static const char *script;
static unsigned long line_number;

static void wrong_line(const char *why, const char *what)
{
    stop(2, "%s:%lu: %s: %s", script, line_number, why, what);
}

static void push(SDL_Event *event)
{
    if (SDL_PushEvent(event) < 0) stop(1, "%s:%lu: %s", script, line_number, SDL_GetError());
    take_events(0);
}

static void push_character(char character)
{
    SDL_Event event;
    memset(&event, 0, sizeof event);
    event.type = SDL_TEXTINPUT;
    event.text.text[0] = character;
    push(&event);
}

/* A key goes down or is let go, after which `held` is held. */
static void push_key_event(Uint32 type, SDL_Keycode key, Uint16 held)
{
    SDL_Event event;
    memset(&event, 0, sizeof event);
    event.type = type;
    event.key.keysym.sym = key;
    event.key.keysym.mod = held;
    push(&event);
}

/* A key by its name, with what is held: `Ctrl+Shift+Z`. Then all is let go. */
static void push_key(const char *name)
{
    SDL_Keycode key;
    Uint16 held = KMOD_NONE;
    const char *plus = strchr(name, '+');
    for (; plus != NULL && plus[1] != '\0'; plus = strchr(name, '+')) {
        if (strncmp(name, "Ctrl+", 5) == 0) held |= KMOD_LCTRL;
        else if (strncmp(name, "Shift+", 6) == 0) held |= KMOD_LSHIFT;
        else wrong_line("no such key", name);
        name = plus + 1;
    }
    key = SDL_GetKeyFromName(name);
    if (key == SDLK_UNKNOWN) wrong_line("no such key", name);
    push_key_event(SDL_KEYDOWN, key, held);
    push_key_event(SDL_KEYUP, key, KMOD_NONE);
}

static void play_keys(char *names)
{
    char *name;
    for (name = strtok(names, " "); name != NULL; name = strtok(NULL, " ")) {
        if (strlen(name) == 1) push_character(name[0]);
        else push_key(name);
    }
}

/* The pointer at the middle of a pixel of the room. */
static void push_pointer(Uint32 type, int32_t x, int32_t y)
{
    SDL_Event event;
    int32_t wx, wy, half = (int32_t)scene.view.scale / 2;
    memset(&event, 0, sizeof event);
    room_to_window(x, y, &wx, &wy);
    event.type = type;
    if (type == SDL_MOUSEMOTION) {
        event.motion.x = wx + half;
        event.motion.y = wy + half;
    } else {
        event.button.button = SDL_BUTTON_LEFT;
        event.button.x = wx + half;
        event.button.y = wy + half;
    }
    push(&event);
}

static void play_click(int32_t x, int32_t y)
{
    push_pointer(SDL_MOUSEMOTION, x, y);
    push_pointer(SDL_MOUSEBUTTONDOWN, x, y);
    push_pointer(SDL_MOUSEBUTTONUP, x, y);
}

static int32_t nearer(int32_t from, int32_t to)
{
    return from < to ? from + 1 : from > to ? from - 1 : from;
}

static void play_drag(int32_t x, int32_t y, int32_t to_x, int32_t to_y)
{
    push_pointer(SDL_MOUSEMOTION, x, y);
    push_pointer(SDL_MOUSEBUTTONDOWN, x, y);
    while (x != to_x || y != to_y) {
        x = nearer(x, to_x);
        y = nearer(y, to_y);
        push_pointer(SDL_MOUSEMOTION, x, y);
    }
    push_pointer(SDL_MOUSEBUTTONUP, x, y);
}

static void replace_room(const char *path)
{
    static uint8_t bytes[KG_MAX_ROOM + 1];
    size_t size;
    const char *why = read_bytes(path, bytes, sizeof bytes, &size);
    FILE *file;
    if (why != NULL) wrong_line(why, path);
    file = fopen(scene.path, "wb");
    if (file == NULL || fwrite(bytes, 1, size, file) != size || fclose(file) != 0)
        stop(2, "%s:%lu: the room can't be replaced: %s", script, line_number, strerror(errno));
    look_at_file();
}

static void expect(const char *text)
{
    if (strstr(scene.message, text) == NULL) stop(1, "%s:%lu: expected: %s: the line of state is: %s", script, line_number, text, scene.message);
}

static void set_path(char *path, const char *word)
{
    snprintf(path, PATH_SIZE, "%s", word);
}

static void write_window_to(const char *path)
{
    const char *why = write_window(path);
    if (why != NULL) stop(1, "%s:%lu: the window's picture can't be written: %s: %s", script, line_number, path, why);
}

/* So many numbers, and nothing else. */
static void take_numbers(const char *rest, int count, int32_t *numbers)
{
    const char *at = rest;
    int i;
    for (i = 0; i < count; i++) {
        char *end;
        long number = strtol(at, &end, 10);
        if (end == at || (*end != ' ' && *end != '\0') || number < -MOST_NUMBER || number > MOST_NUMBER) wrong_line("not the numbers that it takes", rest);
        numbers[i] = (int32_t)number;
        at = end;
    }
    if (at[strspn(at, " ")] != '\0') wrong_line("not the numbers that it takes", rest);
}

static void play_drag_line(const char *rest)
{
    int32_t at[4];
    take_numbers(rest, 4, at);
    play_drag(at[0], at[1], at[2], at[3]);
}

static void play_shift_drag_line(const char *rest)
{
    push_key_event(SDL_KEYDOWN, SDLK_LSHIFT, KMOD_LSHIFT);
    play_drag_line(rest);
    push_key_event(SDL_KEYUP, SDLK_LSHIFT, KMOD_NONE);
}

static void play_place(const char *rest, void (*play)(int32_t, int32_t))
{
    int32_t at[2];
    take_numbers(rest, 2, at);
    play(at[0], at[1]);
}

static void play_move(int32_t x, int32_t y)
{
    push_pointer(SDL_MOUSEMOTION, x, y);
}

static void play_size(int32_t width, int32_t height)
{
    if (width < 1 || height < 1) wrong_line("not a size", "it is less than 1");
    size_window((uint32_t)width, (uint32_t)height);
}

static void play_line(const char *word, char *rest)
{
    if (strcmp(word, "key") == 0) play_keys(rest);
    else if (strcmp(word, "move") == 0) play_place(rest, play_move);
    else if (strcmp(word, "click") == 0) play_place(rest, play_click);
    else if (strcmp(word, "drag") == 0) play_drag_line(rest);
    else if (strcmp(word, "Shift+drag") == 0) play_shift_drag_line(rest);
    else if (strcmp(word, "replace") == 0) replace_room(rest);
    else if (strcmp(word, "save") == 0) set_path(scene.list, rest);
    else if (strcmp(word, "picture") == 0) set_path(scene.picture, rest);
    else if (strcmp(word, "size") == 0) play_place(rest, play_size);
    else if (strcmp(word, "window") == 0) write_window_to(rest);
    else if (strcmp(word, "expect") == 0) expect(rest);
    else if (strcmp(word, "wait") == 0) run_until_ended();
    else wrong_line("no such line of a script", word);
    if (scene.changed) paint_window();
}

void play_script(const char *path)
{
    char line[SCRIPT_LINE];
    FILE *file = opened(path);
    script = path;
    while (ask_states()) { } /* so that the window's picture doesn't depend on time */
    paint_window();
    for (line_number = 1; !scene.ended && fgets(line, sizeof line, file) != NULL; line_number++) {
        char *rest = line + strcspn(line, " \n");
        if (strlen(line) == sizeof line - 1) wrong_line("the line is too long", line);
        line[strcspn(line, "\n")] = '\0';
        if (line[0] == '\0' || line[0] == '#') continue;
        if (*rest != '\0') *rest++ = '\0';
        play_line(line, rest);
    }
    if (ferror(file)) stop(2, "the file can't be read: %s", path);
    fclose(file);
}
