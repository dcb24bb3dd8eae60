/* Calls every function that takes a pointer, with length 0 behind it, and prints each answer: first with pointers to
   something, then with NULL. */
#include <stdio.h>
#include <string.h>

#include "sindovaleph.h"

/* Pointers with no element behind them. */
typedef struct {
    uint8_t *bytes;
    size_t *numbers;
    uint32_t *addresses;
    uint16_t *u16s;
    SindovalephRoute *routes;
} Empty;

/* What is written to, with more elements than are lent. */
static uint8_t room[16];

static void say(const char *name, size_t refused, size_t second, size_t third, size_t place) {
    printf("%s %zu %zu %zu %zu:", name, refused, second, third, place);
    for (size_t at = 0; at < sizeof room; at++)
        printf(" %d", room[at]);
    printf("\n");
    memset(room, 9, sizeof room);
}

static void say_written(const char *name, SindovalephWritten written) {
    say(name, written.refused, 0, 0, written.place);
}

static void say_listed(const char *name, SindovalephListed listed) {
    say(name, listed.refused, listed.stop, listed.rows, listed.place);
}

/* Nothing is read. */
static void read_nothing(Empty none) {
    SindovalephFields fields = sindovaleph_header(none.bytes, 0);
    SindovalephField xid = sindovaleph_xid(none.bytes, 0);
    SindovalephValue raw = sindovaleph_read(61, none.bytes, 0, true);
    SindovalephValue address = sindovaleph_read(1, none.bytes, 0, false);
    SindovalephElement element = sindovaleph_element(3, none.bytes, 0, 0);
    SindovalephReadRoute route = sindovaleph_route_from(none.bytes, 0, 0);
    SindovalephReadRoute indexed = sindovaleph_route_at(none.bytes, 0, 0);
    SindovalephRouteCount routes = sindovaleph_count_routes(none.bytes, 0);
    say("sindovaleph_header", fields.refused, fields.hlen, fields.chaddr_refused, fields.xid);
    say("sindovaleph_xid", xid.refused, xid.number, 0, 0);
    say("sindovaleph_is_utf8", sindovaleph_is_utf8(none.bytes, 0), 0, 0, 0);
    say("sindovaleph_read", raw.refused, raw.kind, raw.count, raw.number);
    say("sindovaleph_read", address.refused, address.kind, address.count, address.number);
    say("sindovaleph_element", element.refused, element.first, element.second, 0);
    say("sindovaleph_route_from", route.refused, route.found, route.width, route.place);
    say("sindovaleph_route_at", indexed.refused, indexed.found, indexed.width, indexed.place);
    say("sindovaleph_count_routes", routes.refused, routes.count, 0, 0);
}

/* An area is walked with nothing to join in and no room for a row. */
static void walk(Empty none, const uint8_t *area, size_t len) {
    SindovalephStep step = sindovaleph_step(area, len, 0, none.bytes, 0);
    say("sindovaleph_step", step.refused, step.stop, step.len, step.place);
    say_listed("sindovaleph_list", sindovaleph_list(area, len, 0, none.numbers, 0));
    say_listed("sindovaleph_read_list", sindovaleph_read_list(area, len, 0, none.numbers, 0, true));
}

/* A message is read with nothing to join in and no room for a row. */
static void read_message(Empty none, const uint8_t *message, size_t len) {
    SindovalephField overload = sindovaleph_overload(message, len);
    SindovalephStep found = sindovaleph_find(message, len, 12, none.bytes, 0);
    SindovalephStep entry = sindovaleph_entry(message, len, 0, none.bytes, 0);
    SindovalephEntries entries = sindovaleph_entries(message, len, none.numbers, 0);
    say("sindovaleph_overload", overload.refused, overload.number, 0, 0);
    say("sindovaleph_find", found.refused, found.stop, found.len, found.place);
    say("sindovaleph_entry", entry.refused, entry.stop, entry.len, entry.place);
    say("sindovaleph_entries", entries.refused, entries.codes, 0, 0);
}

/* A chunk of so many bytes is read into a buffer, of which so many bytes are lent. */
static void receive(uint8_t *buffer, size_t buffer_len, const uint8_t *chunk, size_t len) {
    SindovalephStream stream = {0};
    SindovalephReceived received = sindovaleph_receive(stream, buffer, buffer_len, chunk, len);
    say("sindovaleph_receive", received.refused, received.len, received.used, received.stream.state);
}

/* A value is written to a room, of which so many bytes are lent. */
static void write_values(uint8_t *to, size_t len) {
    static const uint8_t pair[] = {10, 0, 0, 0, 192, 0, 2, 1}, route[] = {8, 10, 192, 0, 2, 1};
    say_written("sindovaleph_close", sindovaleph_close(to, len, 0));
    say_written("sindovaleph_write_address", sindovaleph_write_address(to, len, 0, 1, 7));
    say_written("sindovaleph_write_byte", sindovaleph_write_byte(to, len, 0, 23, 7));
    say_written("sindovaleph_write_yes_no", sindovaleph_write_yes_no(to, len, 0, 19, true));
    say_written("sindovaleph_write_u16", sindovaleph_write_u16(to, len, 0, 26, 7));
    say_written("sindovaleph_write_u32", sindovaleph_write_u32(to, len, 0, 51, 7));
    say_written("sindovaleph_write_i32", sindovaleph_write_i32(to, len, 0, 2, -7));
    say_written("sindovaleph_write_node_type", sindovaleph_write_node_type(to, len, 0, 46, 8));
    say_written("sindovaleph_write_message_type", sindovaleph_write_message_type(to, len, 0, 53, 5));
    say_written("sindovaleph_write_three_bytes", sindovaleph_write_three_bytes(to, len, 0, 94, 1, 2, 3));
    say_written("sindovaleph_write_flag", sindovaleph_write_flag(to, len, 0, 80));
    say_written("sindovaleph_move_out", sindovaleph_move_out(to, len, 0, pair, sizeof pair));
    say_written("sindovaleph_move_back", sindovaleph_move_back(to, len, 0, route, sizeof route));
}

/* Nothing is written to a room, of which so many bytes are lent. */
static void write_nothing(Empty none, uint8_t *to, size_t len) {
    size_t row[] = {12, 0, 0};
    SindovalephWrittenRows rows = sindovaleph_write_list(to, len, 0, none.numbers, 0, none.bytes, 0);
    SindovalephWrittenRows empty = sindovaleph_write_list(to, len, 0, row, 3, none.bytes, 0);
    say("sindovaleph_write_list", rows.refused, rows.rows, 0, rows.place);
    say("sindovaleph_write_list", empty.refused, empty.rows, 0, empty.place);
    say_written("sindovaleph_write_bytes", sindovaleph_write_bytes(to, len, 0, 12, none.bytes, 0));
    say_written("sindovaleph_write_text", sindovaleph_write_text(to, len, 0, 12, none.bytes, 0));
    say_written("sindovaleph_write_addresses", sindovaleph_write_addresses(to, len, 0, 3, none.addresses, 0));
    say_written("sindovaleph_write_pairs", sindovaleph_write_pairs(to, len, 0, 33, none.addresses, 0));
    say_written("sindovaleph_write_u16s", sindovaleph_write_u16s(to, len, 0, 25, none.u16s, 0));
    say_written("sindovaleph_write_codes", sindovaleph_write_codes(to, len, 0, 55, none.bytes, 0));
    say_written("sindovaleph_write_routes", sindovaleph_write_routes(to, len, 0, none.routes, 0));
    say_written("sindovaleph_move_out", sindovaleph_move_out(to, len, 0, none.bytes, 0));
    say_written("sindovaleph_move_back", sindovaleph_move_back(to, len, 0, none.bytes, 0));
    say_written("sindovaleph_write_listing", sindovaleph_write_listing(to, len, 0, none.bytes, 0));
}

static void all(Empty none) {
    static const uint8_t one_part[] = {12, 1, 65, 255}, two_parts[] = {12, 1, 65, 12, 1, 66};
    /* A frame of no byte. */
    static const uint8_t nothing[] = {0, 0};
    /* An option of one part, one of two, and one more in file. */
    static const uint8_t message[] = {
        [108] = 13, 1, 65, [236] = 99, 130, 83, 99, 52, 1, 1, 12, 1, 65, 9, 0, 12, 1, 66, 255,
    };
    read_nothing(none);
    walk(none, none.bytes, 0);
    walk(none, one_part, sizeof one_part);
    walk(none, two_parts, sizeof two_parts);
    read_message(none, none.bytes, 0);
    read_message(none, message, sizeof message);
    receive(none.bytes, 0, none.bytes, 0);
    receive(none.bytes, 0, nothing, sizeof nothing);
    receive(room, sizeof room, none.bytes, 0);
    write_values(none.bytes, 0);
    write_nothing(none, none.bytes, 0);
    write_nothing(none, room, sizeof room);
}

int main(void) {
    static size_t numbers[1];
    static uint32_t addresses[1];
    static uint16_t u16s[1];
    static SindovalephRoute routes[1];
    uint8_t bytes[1];
    Empty there = {bytes, numbers, addresses, u16s, routes}, nowhere = {NULL, NULL, NULL, NULL, NULL};
    memset(room, 9, sizeof room);
    all(there);
    all(nowhere);
    return 0;
}
