/* The list of a cast. */
#include "cast.h"

#include "files.h"
#include "message.h"

#include <stdio.h>
#include <string.h>

#define PICTURES_FORM "pictures FILE"
#define ACTOR_FORM "actor ID Y LEFT TOP WIDTH HEIGHT CLIP START"

/* A word in a message: the first 40 bytes of a long one. */
#define QUOTED "\"%.40s%s\""
#define QUOTE(word) (word), strlen(word) > 40 ? "..." : ""

enum { FIELDS = 8 };

struct cast cast;
static char cast_text[MOST_LIST + 2]; /* one byte more, so that a longer list is told, and a closing NUL */

/* The fields of an actor in their order; the signed ones are i32, the others u32. */
static const struct { const char *name; int is_signed; } actor_fields[FIELDS] = {
    { "ID", 0 }, { "Y", 1 }, { "LEFT", 1 }, { "TOP", 1 }, { "WIDTH", 0 }, { "HEIGHT", 0 }, { "CLIP", 0 }, { "START", 0 },
};

/* The next word of a line: it is closed by a NUL, and `rest` moves behind it. NULL where there is none. */
static char *next_word(char **rest)
{
    char *word = *rest + strspn(*rest, " \t"), *end = word + strcspn(word, " \t");
    *rest = *end == '\0' ? end : end + 1;
    *end = '\0';
    return *word == '\0' ? NULL : word;
}

/* Whether a word is a number of the field's type; if so, `number` is it. */
static int is_number(const char *word, int is_signed, int64_t *number)
{
    int minus = is_signed && word[0] == '-';
    const char *digit = word + minus;
    *number = 0;
    if (*digit == '\0') return 0;
    for (; *digit != '\0'; digit++) {
        if (*digit < '0' || *digit > '9') return 0;
        if (*number <= UINT32_MAX) *number = 10 * *number + (*digit - '0');
    }
    if (minus) *number = -*number;
    return is_signed ? *number >= INT32_MIN && *number <= INT32_MAX : *number <= UINT32_MAX;
}

static void take_actor(unsigned long line, char *rest)
{
    int64_t n[FIELDS];
    struct kg_actor *actor = &cast.actors[cast.count];
    char *word;
    int i;
    if (!cast.pictured) stop(2, "%s:%lu: " ACTOR_FORM ": a line " PICTURES_FORM " comes first", cast.path, line);
    for (i = 0; i < FIELDS; i++) {
        word = next_word(&rest);
        if (word == NULL) stop(2, "%s:%lu: " ACTOR_FORM ": %s is missing", cast.path, line, actor_fields[i].name);
        if (!is_number(word, actor_fields[i].is_signed, &n[i]))
            stop(2, "%s:%lu: " ACTOR_FORM ": " QUOTED " is not %s", cast.path, line, QUOTE(word),
                 actor_fields[i].is_signed ? "-2147483648 to 2147483647" : "0 to 4294967295");
    }
    word = next_word(&rest);
    if (word != NULL) stop(2, "%s:%lu: " ACTOR_FORM ": " QUOTED " is one word too many", cast.path, line, QUOTE(word));
    actor->id = (uint32_t)n[0];
    actor->y = (int32_t)n[1];
    actor->left = (int32_t)n[2];
    actor->top = (int32_t)n[3];
    actor->width = (uint32_t)n[4];
    actor->height = (uint32_t)n[5];
    actor->clip = (uint32_t)n[6];
    actor->start = (uint32_t)n[7];
    cast.lines[cast.count++] = line;
}

/* The name is the rest of the line, so that it may hold blanks. The file stands beside the list, unless its path is absolute. */
static void take_pictures(unsigned long line, char *name)
{
    char *path = cast.pictures_path;
    const char *slash = strrchr(cast.path, '/');
    size_t length;
    int folder;
    name += strspn(name, " \t");
    for (length = strlen(name); length > 0 && strchr(" \t", name[length - 1]) != NULL; length--) name[length - 1] = '\0';
    if (length == 0) stop(2, "%s:%lu: " PICTURES_FORM ": FILE is missing", cast.path, line);
    if (cast.pictured) stop(2, "%s:%lu: " PICTURES_FORM ": " QUOTED " is the second file", cast.path, line, QUOTE(name));
    folder = name[0] == '/' || slash == NULL ? 0 : (int)(slash - cast.path) + 1;
    if (length + (size_t)folder >= sizeof cast.pictures_path) stop(2, "%s:%lu: " PICTURES_FORM ": the path is too long", cast.path, line);
    snprintf(path, sizeof cast.pictures_path, "%.*s%s", folder, cast.path, name);
    cast.pictures_size = read_file(path, cast.pictures, sizeof cast.pictures);
    if (cast.pictures_size > MOST_PICTURES) stop(2, "pictures have at most 16,777,216 bytes: %s", path);
    cast.pictured = 1;
}

/* A line without its end. A character that no line has, a NUL too, becomes a `?`; what is no ASCII may stand in a file's name. */
static void take_line(unsigned long line, char *text, size_t length)
{
    char *word;
    size_t i;
    if (length > 0 && text[length - 1] == '\r') length--;
    for (i = 0; i < length; i++) {
        if (text[i] != '\t' && ((unsigned char)text[i] < ' ' || text[i] == 127)) text[i] = '?';
    }
    text[length] = '\0';
    text[strcspn(text, "#")] = '\0';
    word = next_word(&text);
    if (word == NULL) return;
    if (strcmp(word, "pictures") == 0) take_pictures(line, text);
    else if (strcmp(word, "actor") == 0) take_actor(line, text);
    else stop(2, "%s:%lu: " QUOTED " is no line of a cast: the lines are " PICTURES_FORM ", " ACTOR_FORM, cast.path, line, QUOTE(word));
}

void take_cast(const char *path)
{
    size_t size = read_file(path, (uint8_t *)cast_text, MOST_LIST + 1), at = 0;
    unsigned long line;
    if (size > MOST_LIST) stop(2, "the list of a cast has at most 65,536 bytes: %s", path);
    cast.path = path;
    if (size >= 3 && memcmp(cast_text, "\357\273\277", 3) == 0) at = 3;
    for (line = 1; at < size; line++) {
        const char *end = (const char *)memchr(cast_text + at, '\n', size - at);
        size_t length = end == NULL ? size - at : (size_t)(end - (cast_text + at));
        take_line(line, cast_text + at, length);
        at += length + 1;
    }
}
