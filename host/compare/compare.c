/* In what two rooms differ, by what they decode to. The script ./compare starts it and says what the lines are.
 *
 *     compare [--picture OUT] [--palette FILE] A B
 *
 * The picture has A at the left and B at the right. Bars above and below mark the strips that differ, in both; in B the pixels that differ
 * are mixed with the bars' first colour, and where a plane's bit alone differs with their second. A refused run writes no picture.
 * Exit status: 0 alike; 1 different; 2 a room is refused, a wrong argument or file, or what can't be written. */
#include "bench.h"
#include "canvas.h"
#include "files.h"
#include "message.h"
#include "output.h"

#include <errno.h>
#include <string.h>

const char program[] = "compare";

enum { ALIKE = 0, DIFFERENT = 1, UNUSABLE = 2 };

/* The picture: MARGIN white pixels around both rooms and between them, and bars of BAR rows in the middle of the margin. */
enum { MARGIN = 8, BAR = 4, MOST_ACROSS = 2 * KG_MAX_WIDTH + 3 * MARGIN, MOST_DOWN = KG_MAX_HEIGHT + 2 * MARGIN };

/* Each pixel of a PNG is 2 by 2, to be looked at; a PPM is for other programs. */
enum { SCALE = 2 };

/* How much of a mark's colour is mixed in, in quarters. */
enum { STRONG = 3, WEAK = 2 };

struct options {
    const char *a, *b, *picture, *palette;
};

/* One of the two rooms, and the number that it is refused with. */
struct side {
    const char *letter, *path;
    uint32_t number;
    struct bench bench;
    struct palette palette;
};

static struct side a, b;
static uint8_t list[KG_MAX_DIFFERENCES], painted[3 * MOST_ACROSS * MOST_DOWN], scaled[SCALE * SCALE * sizeof painted];
static uint32_t places;
static const struct colour pixels_differ = { { 255, 0, 144 } }, planes_differ = { { 0, 170, 255 } };

static void usage(void)
{
    stop(UNUSABLE, "usage: compare [--picture OUT] [--palette FILE] A B");
}

static struct options options_of(int argc, char **argv)
{
    struct options o = { NULL, NULL, NULL, NULL };
    int i;
    for (i = 1; i < argc; i++) {
        if (strcmp(argv[i], "--picture") == 0 && i + 1 < argc) o.picture = argv[++i];
        else if (strcmp(argv[i], "--palette") == 0 && i + 1 < argc) o.palette = argv[++i];
        else if (argv[i][0] == '-') usage();
        else if (o.a == NULL) o.a = argv[i];
        else if (o.b == NULL) o.b = argv[i];
        else usage();
    }
    if (o.b == NULL) usage();
    return o;
}

/* A refused room has no sizes: its bench's are 0. */
static void take_room(struct side *side, const char *letter, const char *path, const char *palette)
{
    side->letter = letter;
    side->path = path;
    side->bench.room_size = read_file(path, side->bench.room, sizeof side->bench.room);
    take_palette(&side->palette, palette, side->bench.room, side->bench.room_size);
    side->number = bench_load(&side->bench);
}

/* Which room is refused, or both sizes. */
static void stop_if_refused(uint32_t number)
{
    const struct side *side = a.number != KG_ACCEPTED ? &a : &b;
    const char *text = kg_refusal_text(number);
    if (number == KG_ACCEPTED) return;
    if (side->number != KG_ACCEPTED)
        stop(UNUSABLE, "%s: %s: refused %lu: %s", side->letter, side->path, (unsigned long)number, bench_reason(&side->bench, number));
    if (number == KG_SIZES_DIFFER)
        stop(UNUSABLE, "refused %lu: %s: A: %s: %lu x %lu, B: %s: %lu x %lu", (unsigned long)number, text, a.path,
             (unsigned long)a.bench.width, (unsigned long)a.bench.height, b.path, (unsigned long)b.bench.width, (unsigned long)b.bench.height);
    stop(UNUSABLE, "refused %lu: %s", (unsigned long)number, text);
}

/* The planes of a place, `1 3`, or `none`. */
static void print_planes(uint32_t planes)
{
    uint32_t k;
    printf(" planes%s", planes == 0 ? " none" : "");
    for (k = 1; k <= KG_MAX_PLANES; k++) {
        if ((planes >> (k - 1) & 1) != 0) printf(" %lu", (unsigned long)k);
    }
}

static void print_strips(void)
{
    uint32_t i;
    for (i = 0; i < places; i++) {
        struct kg_difference d = kg_difference_at(list, i);
        printf("strip %lu pixels %lu", (unsigned long)d.strip, (unsigned long)d.pixels);
        print_planes(d.planes);
        printf("\n");
    }
}

static void print_total(void)
{
    uint32_t pixels = 0, planes = 0, i;
    for (i = 0; i < places; i++) {
        struct kg_difference d = kg_difference_at(list, i);
        pixels += d.pixels;
        planes |= d.planes;
    }
    printf("total strips %lu of %lu pixels %lu", (unsigned long)places, (unsigned long)a.bench.width / 8, (unsigned long)pixels);
    print_planes(planes);
    printf("\n");
}

static int headers_differ(uint32_t object) { return memcmp(bench_header(&a.bench, object), bench_header(&b.bench, object), KG_HEADER_SIZE) != 0; }

static int names_differ(uint32_t object)
{
    const uint8_t *first = bench_row(&a.bench, object), *second = bench_row(&b.bench, object);
    uint32_t length = kg_u32(first + KG_ROW_NAME_LENGTH);
    return length != kg_u32(second + KG_ROW_NAME_LENGTH)
           || memcmp(a.bench.room + kg_u32(first + KG_ROW_NAME_START), b.bench.room + kg_u32(second + KG_ROW_NAME_START), length) != 0;
}

/* Marks the objects, of those that both rooms have, for which the question is answered with yes. Whether there are any. */
static int mark_objects(int (*differ)(uint32_t), uint8_t *marked)
{
    uint32_t both = a.bench.objects < b.bench.objects ? a.bench.objects : b.bench.objects, object;
    int any = 0;
    for (object = 1; object <= both; object++) {
        marked[object] = (uint8_t)differ(object);
        any |= marked[object];
    }
    return any;
}

static void print_marked(const char *what, int any, const uint8_t *marked)
{
    uint32_t object;
    printf(" %s%s", what, any ? "" : " none");
    for (object = 1; object <= KG_MAX_OBJECTS; object++) {
        if (marked[object]) printf(" %lu", (unsigned long)object);
    }
}

static void print_objects(void)
{
    uint8_t headers[KG_MAX_OBJECTS + 1] = { 0 }, names[KG_MAX_OBJECTS + 1] = { 0 };
    int header = mark_objects(headers_differ, headers), name = mark_objects(names_differ, names);
    printf("objects %s: A %lu B %lu", header || name || a.bench.objects != b.bench.objects ? "differ" : "alike",
           (unsigned long)a.bench.objects, (unsigned long)b.bench.objects);
    print_marked("headers", header, headers);
    print_marked("names", name, names);
    printf(" (not part of the list)\n");
}

/* The rooms' transparent colours decide how objects are painted, and a room's strips don't show them. */
static void print_transparent(void)
{
    if (a.bench.clear == b.bench.clear) return;
    printf("transparent colours differ: A %lu B %lu (not part of the list)\n", (unsigned long)a.bench.clear, (unsigned long)b.bench.clear);
}

/* A room's pixels, its left edge at a column of the picture. */
static void paint_room(const struct side *side, const struct canvas *picture, uint32_t left)
{
    uint32_t x, y;
    for (y = 0; y < side->bench.height; y++) {
        uint8_t *at = canvas_at(picture, (int32_t)left, (int32_t)(MARGIN + y));
        const uint8_t *pixel = side->bench.pixels + (size_t)y * side->bench.width;
        for (x = 0; x < side->bench.width; x++) memcpy(at + 3 * x, side->palette.rgb + 3 * pixel[x], 3);
    }
}

static void paint_bars(const struct canvas *picture, uint32_t left, struct colour colour)
{
    uint32_t top = (MARGIN - BAR) / 2;
    canvas_fill(picture, (int32_t)left, (int32_t)top, 8, BAR, colour);
    canvas_fill(picture, (int32_t)left, (int32_t)(MARGIN + a.bench.height + top), 8, BAR, colour);
}

static uint64_t hidden(const struct bench *bench, uint32_t plane, uint32_t x, uint32_t y)
{
    return kg_hidden(bench->masks, bench->masks_size, bench->width, bench->height, bench->planes, plane, x, y);
}

/* Whether a bit differs in any plane. A clip above a room's planes hides nothing, as a plane reads that the room doesn't declare. */
static int bits_differ(uint32_t x, uint32_t y)
{
    uint32_t plane;
    for (plane = 1; plane <= KG_MAX_PLANES; plane++) {
        if (hidden(&a.bench, plane, x, y) != hidden(&b.bench, plane, x, y)) return 1;
    }
    return 0;
}

/* A strip that differs: its bars over both rooms, and its pixels in B. */
static void mark_strip(const struct canvas *picture, struct kg_difference d, uint32_t left_of_b)
{
    struct colour colour = d.pixels != 0 ? pixels_differ : planes_differ;
    uint32_t x, y;
    paint_bars(picture, MARGIN + 8 * d.strip, colour);
    paint_bars(picture, left_of_b + 8 * d.strip, colour);
    for (y = 0; y < a.bench.height; y++) {
        for (x = 8 * d.strip; x < 8 * d.strip + 8; x++) {
            size_t at = (size_t)y * a.bench.width + x;
            int32_t across = (int32_t)(left_of_b + x), down = (int32_t)(MARGIN + y);
            if (a.bench.pixels[at] != b.bench.pixels[at]) canvas_mix(picture, across, down, pixels_differ, STRONG);
            else if (bits_differ(x, y)) canvas_mix(picture, across, down, planes_differ, WEAK);
        }
    }
}

static void paint_both(const struct canvas *picture)
{
    uint32_t left_of_b = 2 * MARGIN + a.bench.width, i;
    memset(picture->rgb, 255, 3 * (size_t)picture->width * picture->height);
    paint_room(&a, picture, MARGIN);
    paint_room(&b, picture, left_of_b);
    for (i = 0; i < places; i++) mark_strip(picture, kg_difference_at(list, i), left_of_b);
}

static void make_picture(const char *path)
{
    struct canvas picture = { painted, 0, 0 }, whole = { scaled, 0, 0 };
    uint32_t scale = is_png(path) ? SCALE : 1;
    const char *why;
    picture.width = a.bench.width + b.bench.width + 3 * MARGIN;
    picture.height = a.bench.height + 2 * MARGIN;
    whole.width = scale * picture.width;
    whole.height = scale * picture.height;
    paint_both(&picture);
    canvas_put(&whole, 0, 0, &picture, scale);
    why = write_picture(path, &whole);
    if (why != NULL) stop(UNUSABLE, "the picture can't be written: %s: %s", path, why);
}

int main(int argc, char **argv)
{
    struct options o = options_of(argc, argv);
    uint64_t answer;
    take_room(&a, "A", o.a, o.palette);
    take_room(&b, "B", o.b, o.palette);
    answer = kg_compare(a.bench.room, a.bench.room_size, b.bench.room, b.bench.room_size, list, sizeof list);
    stop_if_refused(kg_number(answer));
    places = kg_value(answer);
    if (o.picture != NULL) make_picture(o.picture);
    print_strips();
    print_objects();
    print_transparent();
    print_total();
    if (fflush(stdout) != 0 || ferror(stdout)) stop(UNUSABLE, "standard output can't be written: %s", strerror(errno));
    return places == 0 ? ALIKE : DIFFERENT;
}
