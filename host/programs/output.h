/* A picture's file. */
#ifndef OUTPUT_H
#define OUTPUT_H

#include "canvas.h"

#include <stdio.h>

/* NULL, or why the picture can't be written. A PNG is made by libpng, the same bytes for the same picture. */
const char *write_png(FILE *file, const struct canvas *canvas);
const char *write_ppm(FILE *file, const struct canvas *canvas);

/* Whether a picture of this name is a PNG: it ends in .png. */
int is_png(const char *path);

/* A picture to a file: a PNG where its name ends in .png, else a PPM. It is written beside the name and put in place whole, so that a picture that
 * can't be written leaves an older one as it is; what is no plain file (a pipe, a device) is written directly. NULL, or why not. */
const char *write_picture(const char *path, const struct canvas *canvas);

#endif
