/* A picture's file. */
#ifndef _XOPEN_SOURCE
#define _XOPEN_SOURCE 700
#endif
#include "output.h"

#include <errno.h>
#include <fcntl.h>
#include <limits.h>
#include <png.h>
#include <stdlib.h>
#include <string.h>
#include <sys/stat.h>
#include <unistd.h>

enum { LEVEL = 9, PATH_SIZE = PATH_MAX + 64, TRIES = 100 };

typedef const char *(*writer)(FILE *, const struct canvas *);

/* What the system says of the error that came last. */
static const char *error_text(void)
{
    return errno == 0 ? "an unknown error" : strerror(errno);
}

/* NULL where all that was written has reached the file. */
static const char *flushed(FILE *file)
{
    return fflush(file) != 0 || ferror(file) ? error_text() : NULL;
}

static void png_failed(png_structp png, png_const_charp text)
{
    (void)text;
    png_longjmp(png, 1);
}

static void png_warned(png_structp png, png_const_charp text)
{
    (void)png;
    (void)text;
}

/* 8 bits of red, green and blue, with a fixed level and without filters, which make a picture of few colours longer; no chunk tells a time. */
static void put_rows(png_structp png, png_infop info, FILE *file, const struct canvas *canvas)
{
    uint32_t y;
    png_init_io(png, file);
    png_set_compression_level(png, LEVEL);
    png_set_filter(png, PNG_FILTER_TYPE_BASE, PNG_FILTER_NONE);
    png_set_IHDR(png, info, canvas->width, canvas->height, 8, PNG_COLOR_TYPE_RGB, PNG_INTERLACE_NONE, PNG_COMPRESSION_TYPE_BASE,
                 PNG_FILTER_TYPE_BASE);
    png_write_info(png, info);
    for (y = 0; y < canvas->height; y++) png_write_row(png, canvas->rgb + 3 * (size_t)y * canvas->width);
    png_write_end(png, info);
}

/* Whether libpng wrote the picture. It comes back to setjmp where something fails. */
static int is_put(png_structp png, png_infop info, FILE *file, const struct canvas *canvas)
{
    if (setjmp(png_jmpbuf(png)) != 0) return 0;
    put_rows(png, info, file, canvas);
    return 1;
}

const char *write_png(FILE *file, const struct canvas *canvas)
{
    png_structp png = png_create_write_struct(PNG_LIBPNG_VER_STRING, NULL, png_failed, png_warned);
    png_infop info = png == NULL ? NULL : png_create_info_struct(png);
    const char *why = NULL;
    errno = 0;
    if (info == NULL) why = "libpng can't be used";
    else if (!is_put(png, info, file, canvas)) why = error_text();
    png_destroy_write_struct(&png, &info);
    return why != NULL ? why : flushed(file);
}

const char *write_ppm(FILE *file, const struct canvas *canvas)
{
    errno = 0;
    fprintf(file, "P6\n%lu %lu\n255\n", (unsigned long)canvas->width, (unsigned long)canvas->height);
    fwrite(canvas->rgb, 3 * (size_t)canvas->width, canvas->height, file);
    return flushed(file);
}

int is_png(const char *path)
{
    size_t length = strlen(path);
    return length >= 4 && strcmp(path + length - 4, ".png") == 0;
}

/* Writes the picture and closes the file. */
static const char *written(FILE *file, writer put, const struct canvas *canvas)
{
    const char *why = put(file, canvas);
    if (fclose(file) != 0 && why == NULL) why = error_text();
    return why;
}

/* A new file in the folder of `path`; its name goes to `name`. NULL, and errno, where there can be none. */
static FILE *new_beside(const char *path, char name[PATH_SIZE])
{
    const char *slash = strrchr(path, '/');
    int folder = slash == NULL ? 0 : (int)(slash - path) + 1, file = -1, i;
    for (i = 0; i < TRIES && file < 0; i++) {
        snprintf(name, PATH_SIZE, "%.*s.picture-%ld-%d", folder, path, (long)getpid(), i);
        file = open(name, O_WRONLY | O_CREAT | O_EXCL, 0666);
        if (file < 0 && errno != EEXIST) return NULL;
    }
    return file < 0 ? NULL : fdopen(file, "wb");
}

/* `mode` is that of the file that is replaced, which keeps it. */
static const char *put_in_place(const char *path, writer put, const struct canvas *canvas, const mode_t *mode)
{
    char name[PATH_SIZE];
    FILE *file = new_beside(path, name);
    const char *why = NULL;
    if (file == NULL) return error_text();
    if (mode != NULL && fchmod(fileno(file), *mode & 07777) != 0) why = error_text();
    if (why == NULL) why = written(file, put, canvas);
    else fclose(file);
    if (why == NULL && rename(name, path) != 0) why = error_text();
    if (why != NULL) remove(name);
    return why;
}

/* A link is followed, so that the file that it names is replaced and the link stays. */
const char *write_picture(const char *path, const struct canvas *canvas)
{
    char followed[PATH_MAX];
    writer put = is_png(path) ? write_png : write_ppm;
    struct stat there;
    FILE *file;
    if (strlen(path) >= PATH_MAX) return strerror(ENAMETOOLONG);
    if (stat(path, &there) != 0) return errno == ENOENT ? put_in_place(path, put, canvas, NULL) : error_text();
    if (!S_ISREG(there.st_mode)) {
        file = fopen(path, "wb");
        return file == NULL ? error_text() : written(file, put, canvas);
    }
    if (access(path, W_OK) != 0 || realpath(path, followed) == NULL) return error_text();
    return put_in_place(followed, put, canvas, &there.st_mode);
}
