/* What the checks of the C interface share: an expectation, a lent buffer between guard bytes, a file's bytes. */
#ifndef LENT_H
#define LENT_H

#include "kildegrom.h"

#include <stdio.h>
#include <stdlib.h>
#include <string.h>

enum { GUARD = 64 };

static const char *program = "";
static int checks;

static void expect(int ok, const char *what)
{
    checks++;
    if (!ok) {
        fprintf(stderr, "%s: %s\n", program, what);
        exit(1);
    }
}

/* A buffer of `size` bytes of value `fill` with guard bytes on both sides. */
struct lent {
    uint8_t *all;
    uint8_t *at;
    size_t size;
};

static struct lent lend(size_t size, int fill)
{
    struct lent b;
    b.all = (uint8_t *)malloc(size + 2 * GUARD);
    expect(b.all != NULL, "out of memory");
    memset(b.all, 0xA5, size + 2 * GUARD);
    b.at = b.all + GUARD;
    b.size = size;
    memset(b.at, fill, size);
    return b;
}

static void give_back(struct lent b)
{
    size_t i;
    for (i = 0; i < GUARD; i++) {
        expect(b.all[i] == 0xA5 && b.at[b.size + i] == 0xA5, "a byte outside a lent buffer was written");
    }
    free(b.all);
}

static int all(const uint8_t *bytes, size_t n, int value)
{
    size_t i;
    for (i = 0; i < n; i++) {
        if (bytes[i] != value) return 0;
    }
    return 1;
}

static struct lent read_file(const char *path)
{
    FILE *f = fopen(path, "rb");
    struct lent b;
    long n;
    expect(f != NULL, "the room's file cannot be opened");
    fseek(f, 0, SEEK_END);
    n = ftell(f);
    fseek(f, 0, SEEK_SET);
    b = lend((size_t)n, 0);
    expect(fread(b.at, 1, b.size, f) == b.size, "the room's file cannot be read");
    fclose(f);
    return b;
}

/* The start and the end of a program of checks: it is given a room. */
static struct lent given_room(const char *name, int argc, char **argv)
{
    program = name;
    expect(argc == 2, "usage: one argument, a room's file");
    return read_file(argv[1]);
}

static int passed(struct lent room)
{
    give_back(room);
    printf("%s: %d checks passed\n", program, checks);
    return 0;
}

#endif
