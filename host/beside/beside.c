/* Puts pictures side by side, for the README's: PPMs as show writes them, of one height, with white columns between them.
 *
 *     beside SCALE OUT PPM...
 *
 * Each pixel becomes SCALE by SCALE, 1 to 9; OUT is a PNG where it ends in .png, else a PPM.
 * Exit status: 0; 1 the picture can't be written; 2 a wrong argument or file. */
#include "files.h"
#include "message.h"
#include "output.h"

#include <stdlib.h>
#include <string.h>

const char program[] = "beside";

enum { GAP = 8, MOST_BYTES = 1 << 22, MOST_SCALE = 9, LONGEST_HEAD = 32 };

static uint8_t bytes[MOST_BYTES + LONGEST_HEAD], beside[MOST_BYTES], scaled[MOST_SCALE * MOST_SCALE * MOST_BYTES];

/* A size in a PPM's head: it moves behind the number and the sign after it. 0 where none stands there. */
static uint32_t size_at(char **at)
{
    uint32_t size = 0;
    for (; **at >= '0' && **at <= '9' && size < MOST_BYTES; (*at)++) size = 10 * size + (uint32_t)(**at - '0');
    if (**at != ' ' && **at != '\n') return 0;
    (*at)++;
    return size;
}

/* The picture of a file, in `bytes`. */
static struct canvas read_ppm(const char *path)
{
    struct canvas picture = { NULL, 0, 0 };
    size_t length = read_file(path, bytes, sizeof bytes - 1);
    char *at = (char *)bytes + 3;
    bytes[length] = '\0';
    if (length > 3 && memcmp(bytes, "P6\n", 3) == 0) {
        picture.width = size_at(&at);
        picture.height = size_at(&at);
    }
    if (picture.width == 0 || picture.height == 0 || strncmp(at, "255\n", 4) != 0) stop(2, "not a PPM as show writes it: %s", path);
    picture.rgb = (uint8_t *)at + 4;
    if ((size_t)(bytes + length - picture.rgb) != 3 * (size_t)picture.width * picture.height)
        stop(2, "the picture's bytes don't fill its size: %s", path);
    return picture;
}

/* Puts a file's picture at the right of what is there; 0 columns are nothing. */
static void add(struct canvas *whole, const char *path)
{
    struct canvas picture = read_ppm(path), wider = { scaled, 0, 0 };
    static const struct colour white = { { 255, 255, 255 } };
    uint32_t left = whole->width == 0 ? 0 : whole->width + GAP;
    if (left != 0 && picture.height != whole->height) stop(2, "pictures side by side are of one height: %s", path);
    wider.width = left + picture.width;
    wider.height = picture.height;
    if (3 * (uint64_t)wider.width * wider.height > MOST_BYTES) stop(2, "more than 4,194,304 bytes side by side: %s", path);
    canvas_fill(&wider, 0, 0, wider.width, wider.height, white);
    if (left != 0) canvas_put(&wider, 0, 0, whole, 1);
    canvas_put(&wider, (int32_t)left, 0, &picture, 1);
    memcpy(beside, scaled, 3 * (size_t)wider.width * wider.height);
    whole->width = wider.width;
    whole->height = wider.height;
}

int main(int argc, char **argv)
{
    struct canvas whole = { beside, 0, 0 }, larger = { scaled, 0, 0 };
    uint32_t scale;
    const char *why;
    int i;
    if (argc < 4 || strlen(argv[1]) != 1 || argv[1][0] < '1' || argv[1][0] > '9') stop(2, "usage: beside SCALE OUT PPM...; SCALE is 1 to 9");
    scale = (uint32_t)(argv[1][0] - '0');
    for (i = 3; i < argc; i++) add(&whole, argv[i]);
    larger.width = scale * whole.width;
    larger.height = scale * whole.height;
    canvas_put(&larger, 0, 0, &whole, scale);
    why = write_picture(argv[2], &larger);
    if (why != NULL) stop(1, "the picture can't be written: %s: %s", argv[2], why);
    return 0;
}
