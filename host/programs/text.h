/* Text in letters of 5 by 7 pixels, each in a cell of 6 by 9; `size` is how many pixels a pixel of a letter has in each direction. */
#ifndef TEXT_H
#define TEXT_H

#include "canvas.h"

enum { CELL_WIDTH = 6, CELL_HEIGHT = 9 };

/* The text's first cell has its upper left corner at (left, top). What is no printable ASCII is a `?`. */
void text_put(const struct canvas *canvas, int32_t left, int32_t top, uint32_t size, struct colour colour, const char *text);

/* The same with a dark edge, to be read on any picture. */
void text_put_edged(const struct canvas *canvas, int32_t left, int32_t top, uint32_t size, struct colour colour, const char *text);

#endif
