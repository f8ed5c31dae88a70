/* The largest tree: 131,071 blocks of eight bytes in a ROOM of 1 MiB, alone and with a picture. Prints how long the whole test takes and
 * how much stack it uses, and fails where that is over the header's figure. The same for a listing, with the most objects behind all those
 * blocks. A room with one byte more is refused. */
#define _POSIX_C_SOURCE 200809L
#include "block.h"
#include "kildegrom.h"
#include "stack.h"

#include <stdio.h>
#include <time.h>

enum { SIZE = KG_MAX_ROOM };

static uint8_t *room, record[KG_RECORD_SIZE], rows[KG_MAX_ROWS];
static size_t room_size = SIZE;
static uint32_t number;
static double seconds;

static void ask_record(void) { number = kg_record(room, room_size, record, sizeof record); }
static void ask_list(void) { number = kg_list(room, room_size, record, sizeof record, rows, sizeof rows); }
static void (*asked)(void) = ask_record;

static void ask(void)
{
    struct timespec a, b;
    clock_gettime(CLOCK_MONOTONIC, &a);
    asked();
    clock_gettime(CLOCK_MONOTONIC, &b);
    seconds = (double)(b.tv_sec - a.tv_sec) + (double)(b.tv_nsec - a.tv_nsec) / 1e9;
}

static void report(const char *what, uint32_t expected)
{
    size_t stack = stack_used(ask), figure = asked == ask_list ? KG_STACK_LIST : KG_STACK_RECORD;
    printf("walk: %s: number %u, %.2f ms, about %zu bytes of stack\n", what, (unsigned)number, seconds * 1e3, stack);
    if (number != expected || stack > figure) exit(1);
}

/* The most objects at the room's end, 32 bytes each, behind all other blocks, and before them their images, 40 bytes each with state 1: so that
 * what is looked for is found last. */
static void report_listing(void)
{
    const uint32_t images = SIZE - KG_MAX_OBJECTS * (40 + 32), objects = SIZE - KG_MAX_OBJECTS * 32;
    uint32_t o;
    for (o = 0; o < KG_MAX_OBJECTS; o++) {
        uint8_t *obim = room + images + 40 * o, *obcd = room + objects + 32 * o;
        memset(obim, 0, 40);
        memset(obcd, 0, 32);
        put_head(obim, "OBIM", 40);
        put_head(obim + 8, "IMHD", 24);
        obim[16] = (uint8_t)(KG_MAX_OBJECTS - o);
        obim[18] = 9;
        put_head(obim + 32, "IM01", 8);
        put_head(obcd, "OBCD", 32);
        put_head(obcd + 8, "CDHD", 24);
        obcd[16] = (uint8_t)(o + 1);
    }
    asked = ask_list;
    report("a listing of 128 objects behind the other blocks", KG_ACCEPTED);
    for (o = 1; o <= KG_MAX_OBJECTS; o++) {
        if (kg_u16(kg_row_at(rows, o)) != o || kg_u16(kg_row_at(rows, o) + KG_ROW_STATES) != 1) exit(1);
    }
    asked = ask_record;
}

int main(void)
{
    uint32_t at;
    uint8_t *b;
    room = (uint8_t *)malloc(SIZE + 1);
    if (room == NULL) return 1;
    ask();   /* so that the dynamic linker has bound what it binds at the first call */
    put_head(room, "ROOM", SIZE);
    for (at = 8; at < SIZE; at += 8) put_head(room + at, "XXXX", 8);
    report("131,071 blocks of eight bytes", KG_BLOCK_MISSING);
    for (at = 8; at < SIZE; at += 8) put_head(room + at, "OBCD", 8);
    report("131,071 empty OBCDs", KG_BLOCK_MISSING);
    /* RMHD 8 x 1, RMIM with RMIH and IM00 with an SMAP of one strip: 14 + 50 bytes, and blocks of eight after them */
    b = room + 8;
    put_head(b, "RMHD", 14);
    memcpy(b + 8, "\10\0\1\0\0\0", 6);
    put_head(b + 14, "RMIM", 50);
    put_head(b + 22, "RMIH", 10);
    memcpy(b + 30, "\0\0", 2);
    put_head(b + 32, "IM00", 32);
    put_head(b + 40, "SMAP", 24);
    memcpy(b + 48, "\14\0\0\0\34\5\0\0\0\0\0\0\0\0\0\0", 16);
    for (at = 72; at < SIZE; at += 8) put_head(room + at, "XXXX", 8);
    report("a room with 131,063 more blocks", KG_ACCEPTED);
    if (record[KG_RECORD_TRANSPARENT] != 255) return 1;
    put_head(room + SIZE - 16, "TRNS", 16);   /* its payload's first byte is the head of the block that stood there: an X */
    report("the same, the last block a TRNS", KG_ACCEPTED);
    if (record[KG_RECORD_TRANSPARENT] != 'X') return 1;
    report_listing();
    for (at = SIZE - KG_MAX_OBJECTS * (40 + 32); at < SIZE; at += 8) put_head(room + at, "XXXX", 8);
    room_size = SIZE + 1;
    put_head(room, "ROOM", SIZE + 1);
    put_head(room + SIZE - 16, "TRNS", 17);
    report("one byte more", KG_NOT_A_ROOM);
    free(room);
    return 0;
}
