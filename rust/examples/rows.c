/* Writes options in one call: all of them, or none where a row is refused. Prints each answer, and then the room. */
#include <stdio.h>
#include <string.h>

#include "sindovaleph.h"

/* The values one behind the other: an ACK, an hour, a name. */
static const uint8_t values[] = {5, 0, 0, 14, 16, 'h', 'o', 's', 't'};

static uint8_t room[18];

/* Writes three rows, of three numbers each, at place 2 of the room's first bytes. */
static size_t write_rows(size_t room_len, const SindovalephWriteRow *rows) {
    SindovalephWrittenRows written = sindovaleph_write_list(room, room_len, 2, &rows[0].code, 9, values, sizeof values);
    if (written.refused)
        printf("row %zu is refused by %d, place %zu:", written.rows, written.refused, written.place);
    else
        printf("%zu rows are written, place %zu:", written.rows, written.place);
    for (size_t at = 0; at < sizeof room; at++)
        printf(" %d", room[at]);
    printf("\n");
    return written.place;
}

int main(void) {
    SindovalephWriteRow rows[] = {{53, 0, 1}, {0, 1, 4}, {12, 5, 4}};
    memset(room, 9, sizeof room);
    write_rows(17, rows); /* 0 is no code */
    rows[1].code = 51;
    write_rows(16, rows); /* a byte is missing */
    size_t place = write_rows(17, rows);
    return sindovaleph_close(room, sizeof room, place).refused;
}
