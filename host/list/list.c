/* The long listing of ./list: a line for the room and one for each object, with all that kg_list gives of it.
 *
 * The room comes from standard input. A room that is wrong is listed as `refused N`, as the proved program of the short listing does it, and ./list
 * says why.
 *
 * Exit status: 0; 1 the input can't be read or the output can't be written. */
#include "kildegrom.h"

#include <stdio.h>

/* One byte more than a room may have, so that a longer file is refused and not cut. */
static uint8_t room[KG_MAX_ROOM + 1], record[KG_RECORD_SIZE], rows[KG_MAX_ROWS];

static void print_room(void)
{
    printf("room %lu %lu planes %lu objects %lu transparent %lu\n", (unsigned long)kg_u16(record + KG_RECORD_WIDTH),
           (unsigned long)kg_u16(record + KG_RECORD_HEIGHT), (unsigned long)kg_u16(record + KG_RECORD_PLANES),
           (unsigned long)kg_u16(record + KG_RECORD_OBJECTS), (unsigned long)record[KG_RECORD_TRANSPARENT]);
}

/* What ./list prints without --long, then the rest of CDHD. */
static void print_header(uint32_t object, const uint8_t *header)
{
    static const char letters[] = "EWNS";
    uint32_t direction = header[KG_HEADER_DIRECTION];
    printf("object %lu id %lu box %lu %lu %lu %lu walk %ld %ld", (unsigned long)object, (unsigned long)kg_u16(header + KG_HEADER_ID),
           8ul * header[KG_HEADER_X], 8ul * header[KG_HEADER_Y], 8ul * header[KG_HEADER_WIDTH], 8ul * header[KG_HEADER_HEIGHT],
           (long)kg_i16(header + KG_HEADER_WALK_X), (long)kg_i16(header + KG_HEADER_WALK_Y));
    if (direction < 4) printf(" look %c", letters[direction]);
    else printf(" look %lu", (unsigned long)direction);
    printf(" parent %lu flags %02lX", (unsigned long)header[KG_HEADER_PARENT], (unsigned long)header[KG_HEADER_FLAGS]);
}

static void print_states(const uint8_t *row)
{
    uint32_t state;
    printf(" states%s", kg_u16(row + KG_ROW_STATES) == 0 ? " none" : "");
    for (state = 1; state <= 9; state++) {
        if (kg_row_has_state(row, state)) printf(" %lu", (unsigned long)state);
    }
}

/* A byte that is no printable ASCII, a quote or a backslash is \xNN, so that a line stays a line and a name can be read back. */
static void print_name(const uint8_t *row)
{
    const uint8_t *name = room + kg_u32(row + KG_ROW_NAME_START);
    uint32_t length = kg_u32(row + KG_ROW_NAME_LENGTH), i;
    printf(" name \"");
    for (i = 0; i < length; i++) {
        if (name[i] < ' ' || name[i] > '~' || name[i] == '"' || name[i] == '\\') printf("\\x%02X", (unsigned)name[i]);
        else putchar(name[i]);
    }
    printf("\"\n");
}

static void print_objects(void)
{
    uint32_t objects = kg_u16(record + KG_RECORD_OBJECTS), object;
    for (object = 1; object <= objects; object++) {
        print_header(object, kg_row_at(rows, object) + KG_ROW_HEADER);
        print_states(kg_row_at(rows, object));
        print_name(kg_row_at(rows, object));
    }
}

int main(void)
{
    size_t size = fread(room, 1, sizeof room, stdin);
    uint32_t number = kg_list(room, size, record, sizeof record, rows, sizeof rows);
    if (ferror(stdin)) return 1;
    if (number == KG_ACCEPTED) {
        print_room();
        print_objects();
    } else {
        printf("refused %lu\n", (unsigned long)number);
    }
    return fflush(stdout) != 0 || ferror(stdout);
}
