/* A file's bytes. */
#ifndef FILES_H
#define FILES_H

#include <stddef.h>
#include <stdint.h>
#include <stdio.h>

/* At most `size` bytes of a file go to `bytes`, how many to `length`. NULL, or why not: "the file can't be opened", "the file can't be read",
 * "the file is empty". */
const char *read_bytes(const char *path, uint8_t *bytes, size_t size, size_t *length);

/* The same; where a file can't be read, the program ends with status 2 and `REASON: PATH`. */
size_t read_file(const char *path, uint8_t *bytes, size_t size);
FILE *opened(const char *path);

/* Whether both names are those of one file that is there. */
int same_file(const char *one, const char *other);

#endif
