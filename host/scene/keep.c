/* The list of steps and the picture as files. Steps that were not saved are kept beside the room at every end. */
#include "message.h"
#include "output.h"
#include "scene.h"

#include <errno.h>
#include <stdio.h>
#include <string.h>
#include <sys/stat.h>

#define HEAD "# The steps that stand on "
enum { OLDER = 9, LINE_SIZE = 256 };

/* The room's picture at the largest scale. */
static uint8_t own_size[3 * KG_MAX_PIXELS], scaled[3 * KG_MAX_PIXELS * LARGEST * LARGEST];

/* The steps are the session's first bytes: how many there are, and five bytes for each. */
int is_unsaved(void)
{
    const uint8_t *session = scene.bench.session;
    uint32_t i, steps = kg_session_steps(session);
    if (steps != kg_session_steps(scene.saved)) return 1;
    for (i = 0; i < steps; i++) {
        struct kg_step now = kg_session_step(session, i), then = kg_session_step(scene.saved, i);
        if (memcmp(&now, &then, sizeof now) != 0) return 1;
    }
    return 0;
}

void mark_saved(void)
{
    memcpy(scene.saved, scene.bench.session, sizeof scene.saved);
}

static void write_steps(FILE *file)
{
    uint32_t i, steps = kg_session_steps(scene.bench.session);
    const char *name = strrchr(scene.path, '/');
    fprintf(file, HEAD "%s\n", name == NULL ? scene.path : name + 1);
    for (i = 0; i < steps; i++) {
        char line[CALL_LINE];
        call_line(call_of_step(kg_session_step(scene.bench.session, i)), line);
        fprintf(file, "%s\n", line);
    }
}

/* A name for what stood in a file: the name with an ending, then with a digit behind it that is free, at last with 9. */
static void set_aside(const char *path, const char *ending)
{
    char aside[PATH_SIZE + 16];
    struct stat there;
    int i;
    snprintf(aside, sizeof aside, "%s%s", path, ending);
    for (i = 1; i <= OLDER && stat(aside, &there) == 0; i++) snprintf(aside, sizeof aside, "%s%s%c", path, ending, '0' + i);
    rename(path, aside);
}

/* Whether a file has what this program writes and no comment of somebody else's: then it can be written again. */
static int is_own(const char *path)
{
    char line[LINE_SIZE];
    FILE *file = fopen(path, "r");
    int own = file != NULL && fgets(line, sizeof line, file) != NULL && strncmp(line, HEAD, sizeof HEAD - 1) == 0;
    while (own && fgets(line, sizeof line, file) != NULL) own = strchr(line, '#') == NULL;
    if (file != NULL) fclose(file);
    return own;
}

/* The list goes to a file beside the one named, which then takes its name: a disk that is full leaves the older list, which is set aside where it
 * is to be kept. NULL, or why not; what is no plain file is not replaced. */
static const char *write_list(const char *path, const char *ending, int keeps)
{
    char beside[PATH_SIZE + 8];
    struct stat there;
    FILE *file;
    int is_there = stat(path, &there) == 0, written;
    if (is_there && !S_ISREG(there.st_mode)) return "it is no plain file";
    snprintf(beside, sizeof beside, "%s.part", path);
    file = fopen(beside, "w");
    if (file == NULL) return strerror(errno);
    write_steps(file);
    written = !ferror(file);
    if (fclose(file) == 0 && written) {
        if (is_there && keeps) set_aside(path, ending);
        if (rename(beside, path) == 0) return NULL;
    }
    written = errno;
    remove(beside);
    return strerror(written);
}

void save_list(void)
{
    const char *why = write_list(scene.list, ".old", !is_own(scene.list));
    if (why != NULL) {
        tell(1, "the list can't be written: %s: %s", scene.list, why);
        return;
    }
    mark_saved();
    tell(0, "saved: %s, steps: %lu", scene.list, (unsigned long)kg_session_steps(scene.bench.session));
}

void save_picture(void)
{
    const struct bench *bench = &scene.bench;
    struct canvas picture = { own_size, 0, 0 }, large = { scaled, 0, 0 };
    const char *why;
    picture.width = bench->width;
    picture.height = bench->height;
    large.width = bench->width * scene.view.scale;
    large.height = bench->height * scene.view.scale;
    view_paint(&scene.view, bench, frame_with_actor(), &scene.palette, &picture);
    view_put(&scene.view, bench, &picture, &large, 0, 0);
    why = write_picture(scene.picture, &large);
    if (why != NULL) tell(1, "the picture can't be written: %s: %s", scene.picture, why);
    else tell(0, "picture: %s", scene.picture);
}

/* Steps that were kept before, and that nobody may have looked at yet, stay under another name. Where the folder takes no file, the steps go to
 * standard error: they are typed, and are not lost. */
void keep_list(void)
{
    const char *why = write_list(scene.kept, "", 1);
    if (why == NULL) {
        say("the steps are kept in %s", scene.kept);
        return;
    }
    say("the steps can't be kept in %s: %s; they are:", scene.kept, why);
    write_steps(stderr);
}

void keep_at_the_end(void)
{
    if (is_unsaved()) keep_list();
}
