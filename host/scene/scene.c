/* The scene bench: a window in which a room is dressed. The script ./scene starts it and says what its keys are.
 *
 *     scene [--scale N] [--palette FILE] [--cast FILE] [--save LIST] [--picture OUT] [--script FILE] [--records RECORDS --names NAMES] ROOM
 *
 * RECORDS and NAMES are what tools/calls makes of a list of calls, whose file is LIST. Exit status: 0; 1 the room is refused, no window can be
 * opened or a script expects something else; 2 a wrong argument or file; 128 and the signal's number where a signal ended it. */
#include "files.h"
#include "message.h"
#include "scene.h"

#include <signal.h>
#include <stdio.h>
#include <stdlib.h>
#include <string.h>

enum { LOOKS = 6, WAIT = 50 };

const char program[] = "scene";
struct scene scene;
static volatile sig_atomic_t ended_by;

struct options {
    const char *room, *records, *names, *cast, *list, *picture, *script;
    uint32_t scale;
};

static void usage(void)
{
    stop(2, "usage: scene [--scale N] [--palette FILE] [--cast FILE] [--save LIST] [--picture OUT] [--script FILE] [--records RECORDS --names NAMES] ROOM");
}

static uint32_t scale_of(const char *text)
{
    if (strlen(text) != 1 || text[0] < '1' || text[0] > '0' + LARGEST) stop(2, "--scale takes 1 to %d, not: %s", LARGEST, text);
    return (uint32_t)(text[0] - '0');
}

/* The place for the value of an option, or NULL where there is no such option. */
static const char **value_of(struct options *o, const char *name)
{
    if (strcmp(name, "--palette") == 0) return &scene.palette_path;
    if (strcmp(name, "--cast") == 0) return &o->cast;
    if (strcmp(name, "--save") == 0) return &o->list;
    if (strcmp(name, "--picture") == 0) return &o->picture;
    if (strcmp(name, "--script") == 0) return &o->script;
    if (strcmp(name, "--records") == 0) return &o->records;
    if (strcmp(name, "--names") == 0) return &o->names;
    return NULL;
}

static struct options options_of(int argc, char **argv)
{
    struct options o = { NULL, NULL, NULL, NULL, NULL, NULL, NULL, 0 };
    int i;
    for (i = 1; i < argc; i++) {
        const char **value = value_of(&o, argv[i]);
        if (value != NULL && i + 1 < argc) *value = argv[++i];
        else if (strcmp(argv[i], "--scale") == 0 && i + 1 < argc) o.scale = scale_of(argv[++i]);
        else if (argv[i][0] == '-' || o.room != NULL) usage();
        else o.room = argv[i];
    }
    if (o.room == NULL || (o.records == NULL) != (o.names == NULL)) usage();
    return o;
}

/* A path, or the room's with an ending where none is named. */
static void set_path(char *path, const char *named, const char *ending)
{
    int length = named != NULL ? snprintf(path, PATH_SIZE, "%s", named) : snprintf(path, PATH_SIZE, "%s%s", scene.path, ending);
    if (length >= PATH_SIZE) stop(2, "the path is too long: %s", named != NULL ? named : scene.path);
}

static void on_signal(int number)
{
    ended_by = number;
}

static void catch_signals(void)
{
    static const int numbers[] = { SIGINT, SIGTERM, SIGHUP };
    struct sigaction action;
    size_t i;
    memset(&action, 0, sizeof action);
    action.sa_handler = on_signal;
    for (i = 0; i < sizeof numbers / sizeof numbers[0]; i++) sigaction(numbers[i], &action, NULL);
}

/* Events, then, while none come, states and a look at the room's file every third of a second. */
void run_until_ended(void)
{
    int rounds = 0;
    while (!scene.ended && ended_by == 0) {
        take_events(scene.asked < scene.bench.objects ? 1 : WAIT);
        ask_states();
        if (++rounds % LOOKS == 0) look_at_file();
        if (scene.changed) paint_window();
    }
}

static void tell_kept(void)
{
    FILE *file = fopen(scene.kept, "r");
    if (file == NULL) return;
    fclose(file);
    tell(0, "steps of an earlier session are kept in %s", scene.kept);
}

/* What is written replaces nothing that is read. */
static void spare(const char *written, const struct options *o)
{
    const char *read[] = { NULL, NULL, NULL, NULL };
    size_t i;
    read[0] = o->room;
    read[1] = scene.palette_path;
    read[2] = o->cast;
    read[3] = o->script;
    for (i = 0; i < sizeof read / sizeof read[0]; i++) {
        if (read[i] != NULL && same_file(written, read[i])) stop(2, "%s would replace a file that is read: %s", written, read[i]);
    }
}

static void set_paths(const struct options *o)
{
    set_path(scene.list, o->list, ".calls");
    set_path(scene.picture, o->picture, ".png");
    set_path(scene.kept, NULL, ".calls~");
    spare(scene.list, o);
    spare(scene.picture, o);
    if (same_file(scene.list, scene.picture)) stop(2, "the list and the picture are one file: %s", scene.list);
}

static void begin(const struct options *o)
{
    scene.path = o->room;
    set_paths(o);
    scene.panel = 1;
    take_actor(o->cast);
    open_room(o->records, o->names);
    mark_saved();
    if (scene.told_count > 0) tell(1, "calls of the list refused: %lu", (unsigned long)scene.told_count);
    else tell_kept();
}

int main(int argc, char **argv)
{
    struct options o = options_of(argc, argv);
    begin(&o);
    catch_signals();
    atexit(keep_at_the_end); /* an X server that goes away ends a program by exit, too */
    open_window(o.scale);
    if (o.script != NULL) play_script(o.script);
    else run_until_ended();
    close_window();
    return ended_by == 0 ? 0 : 128 + ended_by;
}
