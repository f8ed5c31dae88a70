/* A file's bytes. */
#ifndef _POSIX_C_SOURCE
#define _POSIX_C_SOURCE 200809L
#endif
#include "files.h"

#include "message.h"

#include <sys/stat.h>

static const char not_opened[] = "the file can't be opened";

const char *read_bytes(const char *path, uint8_t *bytes, size_t size, size_t *length)
{
    FILE *file = fopen(path, "rb");
    int failed;
    if (file == NULL) return not_opened;
    *length = fread(bytes, 1, size, file);
    failed = ferror(file);
    fclose(file);
    if (failed) return "the file can't be read";
    return *length == 0 ? "the file is empty" : NULL;
}

size_t read_file(const char *path, uint8_t *bytes, size_t size)
{
    size_t length;
    const char *why = read_bytes(path, bytes, size, &length);
    if (why != NULL) stop(2, "%s: %s", why, path);
    return length;
}

FILE *opened(const char *path)
{
    FILE *file = fopen(path, "rb");
    if (file == NULL) stop(2, "%s: %s", not_opened, path);
    return file;
}

int same_file(const char *one, const char *other)
{
    struct stat first, second;
    if (stat(one, &first) != 0 || stat(other, &second) != 0) return 0;
    return first.st_dev == second.st_dev && first.st_ino == second.st_ino;
}
