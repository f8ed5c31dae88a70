/* Writes one block with the library's writers: the rows come from standard input, the block goes to standard output. rooms/paint.py
 * makes the painted rooms with it.
 *
 *     write smap W H        W * H pixel bytes, the block SMAP
 *     write plane W H K     (W / 8) * H mask bytes, the block ZP0K
 *
 * Exit status: 0; 1 the library refused; 2 a wrong argument or input. */
#include "kildegrom.h"

#include <stdio.h>
#include <stdlib.h>
#include <string.h>

/* One byte more than the largest picture has, so that longer rows are seen. kg_smap_bound of the largest picture is less than twice as much. */
static uint8_t rows[KG_MAX_PIXELS + 1], block[2 * KG_MAX_PIXELS];

static void stop(const char *what)
{
    fprintf(stderr, "write: %s\n", what);
    exit(2);
}

static uint32_t number_of(const char *text)
{
    size_t digits = strspn(text, "0123456789");
    if (digits == 0 || digits > 4 || text[digits] != '\0') stop("a size and a plane are numbers of at most four digits");
    return (uint32_t)atoi(text);
}

int main(int argc, char **argv)
{
    int plane = argc == 5 && strcmp(argv[1], "plane") == 0;
    uint32_t w, h;
    uint64_t answer;
    size_t size;
    if (!plane && !(argc == 4 && strcmp(argv[1], "smap") == 0)) stop("usage: write smap W H | write plane W H K");
    w = number_of(argv[2]);
    h = number_of(argv[3]);
    size = fread(rows, 1, sizeof rows, stdin);
    if (size != (size_t)(plane ? w / 8 : w) * h) stop("the rows on standard input are not of the size named");
    answer = plane ? kg_write_plane(rows, size, block, sizeof block, w, h, number_of(argv[4]))
                   : kg_write_smap(rows, size, block, sizeof block, w, h);
    if (kg_number(answer) != KG_ACCEPTED) {
        fprintf(stderr, "write: refused %lu: %s\n", (unsigned long)kg_number(answer), kg_refusal_text(kg_number(answer)));
        return 1;
    }
    fwrite(block, 1, kg_value(answer), stdout);
    if (fflush(stdout) != 0 || ferror(stdout)) stop("the block can't be written");
    return 0;
}
