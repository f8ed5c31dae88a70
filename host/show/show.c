/* The picture of a room after a list of calls. The script ./show starts it and says what the options are.
 *
 *     show [-o OUT] [--scale N] [--cast FILE] [--plane K | --all-planes] [--boxes] [--grid] [--names] [--palette FILE] ROOM [RECORDS]
 *
 * RECORDS is what tools/calls makes of a list. A refused call leaves the picture as it was, and standard error has a line of its place in
 * the list and its number, `call 3: 12`, as the player writes it; the script turns it into the list's own words. A refused cast leaves the
 * picture as it was too, and is named on standard error. Without -o the picture goes to standard output as a PPM.
 * Exit status: 0; 1 the load was refused or the picture can't be written; 2 a wrong argument or file. */
#include "bench.h"
#include "cast.h"
#include "files.h"
#include "message.h"
#include "output.h"
#include "view.h"

#include <string.h>

const char program[] = "show";

struct options {
    const char *room, *records, *palette, *cast, *out;
    struct view view;
};

static struct bench bench;
static struct palette palette;
static uint8_t frame[KG_MAX_PIXELS]; /* the pixels with the cast */
static uint8_t painted[3 * KG_MAX_PIXELS], scaled[3 * MAX_SCALE * MAX_SCALE * KG_MAX_PIXELS];

static void usage(void)
{
    stop(2, "usage: show [-o OUT] [--scale N] [--cast FILE] [--plane K | --all-planes] [--boxes] [--grid] [--names] [--palette FILE] ROOM [RECORDS]");
}

/* The number, 1 to `most`, that an option takes. */
static uint32_t digit(const char *option, const char *text, int most)
{
    if (strlen(text) != 1 || text[0] < '1' || text[0] > '0' + most) stop(2, "%s takes 1 to %d, not: %s", option, most, text);
    return (uint32_t)(text[0] - '0');
}

/* Whether the word is an option without a value; if so, it is taken. */
static int take_flag(struct view *view, const char *word)
{
    if (strcmp(word, "--boxes") == 0) view->boxes = 1;
    else if (strcmp(word, "--grid") == 0) view->grid = 1;
    else if (strcmp(word, "--names") == 0) view->names = 1;
    else if (strcmp(word, "--all-planes") == 0 && view->plane == 0) view->plane = ALL_PLANES;
    else return 0;
    return 1;
}

static void take_valued(struct options *o, const char *word, const char *value)
{
    if (value == NULL) usage();
    else if (strcmp(word, "-o") == 0) o->out = value;
    else if (strcmp(word, "--palette") == 0) o->palette = value;
    else if (strcmp(word, "--cast") == 0) o->cast = value;
    else if (strcmp(word, "--scale") == 0) o->view.scale = digit(word, value, MAX_SCALE);
    else if (strcmp(word, "--plane") == 0 && o->view.plane != ALL_PLANES) o->view.plane = digit(word, value, KG_MAX_PLANES);
    else usage();
}

static struct options options_of(int argc, char **argv)
{
    struct options o = { NULL, NULL, NULL, NULL, NULL, { 0, 0, 0, 0, 1 } };
    int i;
    for (i = 1; i < argc; i++) {
        if (take_flag(&o.view, argv[i])) continue;
        if (argv[i][0] == '-') {
            take_valued(&o, argv[i], argv[i + 1]);
            i++;
        } else if (o.room == NULL) o.room = argv[i];
        else if (o.records == NULL) o.records = argv[i];
        else usage();
    }
    if (o.room == NULL) usage();
    return o;
}

/* Arguments and files are told before the room is. */
static void load(const struct options *o)
{
    uint32_t number;
    bench.room_size = read_file(o->room, bench.room, sizeof bench.room);
    take_palette(&palette, o->palette, bench.room, bench.room_size);
    if (o->cast != NULL) take_cast(o->cast);
    if (o->out != NULL && cast.pictured && same_file(o->out, cast.pictures_path))
        stop(2, "the picture would replace a file that is read: %s", cast.pictures_path);
    number = bench_load(&bench);
    if (number != KG_ACCEPTED) stop(1, "%s: refused %lu: %s", o->room, (unsigned long)number, bench_reason(&bench, number));
    if (o->view.plane != ALL_PLANES && o->view.plane > bench.planes)
        stop(2, "--plane %lu: the room's planes are %lu in number", (unsigned long)o->view.plane, (unsigned long)bench.planes);
}

static void make_calls(const char *path)
{
    FILE *file = opened(path);
    uint8_t bytes[CALL_SIZE];
    unsigned long index = 0;
    size_t n;
    while ((n = fread(bytes, 1, sizeof bytes, file)) == sizeof bytes) {
        struct call call = call_of_record(bytes);
        uint32_t number;
        index++;
        if (call.kind > CALL_BACK) stop(2, "%s: record %lu is of no known kind", path, index);
        number = bench_call(&bench, call);
        if (number != KG_ACCEPTED) fprintf(stderr, "call %lu: %lu\n", index, (unsigned long)number);
    }
    if (n != 0 || ferror(file)) stop(2, "%s: not a whole number of records of %d bytes", path, CALL_SIZE);
    fclose(file);
}

/* So many actors on a fresh frame, which a refused call leaves as it is. */
static uint32_t cast_number(struct kg_actor *actors, size_t count)
{
    memcpy(frame, bench.pixels, bench.pixels_size);
    return kg_cast(actors, count, frame, bench.pixels_size, bench.masks, bench.masks_size, cast.pictures, cast.pictures_size, bench.width,
                   bench.height, bench.planes, bench.clear);
}

/* Why the cast is refused: the first actor that is refused alone is named by its line; where none is, the list as a whole. */
static void tell_refused(uint32_t number)
{
    char place[160] = "", more[64] = "";
    size_t i;
    for (i = 0; i < cast.count && number != KG_CAST_TOO_LARGE; i++) {
        struct kg_actor a = cast.actors[i];
        if (cast_number(&a, 1) == KG_ACCEPTED) continue;
        snprintf(place, sizeof place, ":%lu: actor %lu %ld %ld %ld %lu %lu %lu %lu", cast.lines[i], (unsigned long)a.id, (long)a.y, (long)a.left,
                 (long)a.top, (unsigned long)a.width, (unsigned long)a.height, (unsigned long)a.clip, (unsigned long)a.start);
        break;
    }
    if (number == KG_BUFFER_SHORT) snprintf(more, sizeof more, " (the pictures have %lu bytes)", (unsigned long)cast.pictures_size);
    say("%s%s: refused %lu: %s%s", cast.path, place, (unsigned long)number, kg_refusal_text(number), more);
}

/* Without --cast the cast is empty, and the frame has the pixels alone. */
static void paint_cast(void)
{
    uint32_t number = cast_number(cast.actors, cast.count);
    if (number != KG_ACCEPTED) tell_refused(number);
}

static void write_view(const struct options *o)
{
    struct canvas room, whole;
    const char *why;
    room.rgb = painted;
    room.width = bench.width;
    room.height = bench.height;
    whole.rgb = scaled;
    whole.width = o->view.scale * bench.width;
    whole.height = o->view.scale * bench.height;
    view_paint(&o->view, &bench, frame, &palette, &room);
    view_put(&o->view, &bench, &room, &whole, 0, 0);
    why = o->out != NULL ? write_picture(o->out, &whole) : write_ppm(stdout, &whole);
    if (why != NULL && o->out != NULL) stop(1, "the picture can't be written: %s: %s", o->out, why);
    if (why != NULL) stop(1, "the picture can't be written: %s", why);
}

int main(int argc, char **argv)
{
    struct options o = options_of(argc, argv);
    load(&o);
    if (o.records != NULL) make_calls(o.records);
    paint_cast();
    write_view(&o);
    return 0;
}
