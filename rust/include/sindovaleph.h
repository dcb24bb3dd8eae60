/*
 * DHCP messages, read and written: the library's boundary for C and C++, on x86-64 Linux.
 *
 * Link libsindovaleph.a, which a package has in lib; ./archives in the repository's root builds it in target/library.
 *
 * Every function takes whatever bytes, lengths and places it is lent and ends with an answer or the number of a
 * refusal. It needs valid memory and no more: each pointer has as many elements as the length behind it says, and may be
 * NULL where that is 0; what is written to overlaps nothing else that is lent. No pointer is kept.
 *
 * In every answer `refused` is the number of a refusal, 0 for none. Where one is given, nothing that was lent is
 * changed, a place is the one that was given, and all else is 0 but for two numbers: `len` of a step that is refused
 * with 5 says how many bytes are needed, and `rows` of a write of rows says which row is refused. The one exception is
 * sindovaleph_receive, whose refusals move the stream.
 */
#ifndef SINDOVALEPH_H
#define SINDOVALEPH_H

#include <stdbool.h>
#include <stddef.h>
#include <stdint.h>

#ifdef __cplusplus
extern "C" {
#endif

/* The version of the boundary. Its name carries the number, and each file that includes this header names it, where
   the compiler can be told so: a library of another version does not link. */
#define SINDOVALEPH_BOUNDARY sindovaleph_boundary_5

/* The number of the version. */
uint32_t SINDOVALEPH_BOUNDARY(void);

#ifdef __has_attribute
#if __has_attribute(retain)
static uint32_t (*const sindovaleph_boundary)(void) __attribute__((used, retain)) = SINDOVALEPH_BOUNDARY;
#elif __has_attribute(used)
static uint32_t (*const sindovaleph_boundary)(void) __attribute__((used)) = SINDOVALEPH_BOUNDARY;
#endif
#endif

/* The refusals. */
enum {
    SINDOVALEPH_REFUSED_MESSAGE_TOO_SHORT = 1,   /* the message has fewer than 240 bytes */
    SINDOVALEPH_REFUSED_TOO_LONG = 2,            /* a message, area, room or value to be read: more than 65,535 bytes */
    SINDOVALEPH_REFUSED_CHADDR_PAST_END = 3,     /* hlen says more bytes than the message has from byte 28 on */
    SINDOVALEPH_REFUSED_PAST_END = 4,            /* a place is past the end, or an index is not below the count */
    SINDOVALEPH_REFUSED_JOIN_TOO_SHORT = 5,      /* an option of several parts is longer than the join buffer */
    SINDOVALEPH_REFUSED_NO_SUCH_CODE = 6,        /* the code is 0 or 255, which have no value */
    SINDOVALEPH_REFUSED_VALUE_TOO_LONG = 7,      /* the value to be written has more than 4,080 bytes */
    SINDOVALEPH_REFUSED_NO_ROOM = 8,             /* what is to be written does not fit behind the place in the room */
    SINDOVALEPH_REFUSED_OTHER_KIND = 9,          /* a typed write names a code of another kind */
    SINDOVALEPH_REFUSED_WRONG_LENGTH = 10,       /* the value's length is wrong for its kind, or a route is cut */
    SINDOVALEPH_REFUSED_NOT_UTF8 = 11,           /* text is not UTF-8 */
    SINDOVALEPH_REFUSED_WIDTH_ABOVE32 = 12,      /* a route's width is above 32 */
    SINDOVALEPH_REFUSED_ODD_PAIRS = 13,          /* a list of pairs has an odd number of addresses */
    SINDOVALEPH_REFUSED_UNCLEAR_YES_NO = 14,     /* strict reading: a yes/no byte is neither 0 nor 1 */
    SINDOVALEPH_REFUSED_FIELD_CUT = 15,          /* a field that holds options is cut */
    SINDOVALEPH_REFUSED_UNCLEAR_OVERLOAD = 16,   /* option 52 has more than one part or is not one byte of 1 to 3 */
    SINDOVALEPH_REFUSED_SIZE_ABOVE_BUFFER = 17,  /* a stream: the size of a frame is more than the buffer has */
    SINDOVALEPH_REFUSED_DESTINATION_BARRED = 18, /* a move: a destination is 0.0.0.0 or its first octet is above 223 */
    SINDOVALEPH_REFUSED_NO_OLD_FORM = 19         /* a move back: no pair of option 33 stands for a route's width */
};

/* Why a walk stopped. A stop is no refusal: the place moves, and a further call goes on from there. */
enum {
    SINDOVALEPH_STOP_OUT = 1,             /* no byte is left */
    SINDOVALEPH_STOP_END = 2,             /* End, 255 */
    SINDOVALEPH_STOP_CUT_LENGTH = 3,      /* a code stands at the area's end, with no length */
    SINDOVALEPH_STOP_CUT_VALUE = 4,       /* a length is beyond what is left */
    SINDOVALEPH_STOP_CUT_CONTINUATION = 5 /* a further part of an option is cut */
};

/* The kinds of value. */
enum {
    SINDOVALEPH_KIND_RAW = 0,
    SINDOVALEPH_KIND_ADDRESS = 1,
    SINDOVALEPH_KIND_ADDRESSES = 2,
    SINDOVALEPH_KIND_PAIRS = 3,
    SINDOVALEPH_KIND_BYTE = 4,
    SINDOVALEPH_KIND_YES_NO = 5,
    SINDOVALEPH_KIND_U16 = 6,
    SINDOVALEPH_KIND_U16S = 7,
    SINDOVALEPH_KIND_U32 = 8,
    SINDOVALEPH_KIND_I32 = 9,
    SINDOVALEPH_KIND_TEXT = 10,
    SINDOVALEPH_KIND_CODES = 11,
    SINDOVALEPH_KIND_NODE_TYPE = 12,
    SINDOVALEPH_KIND_MESSAGE_TYPE = 13,
    SINDOVALEPH_KIND_THREE_BYTES = 14,
    SINDOVALEPH_KIND_FLAG = 15
};

/* Where a stream of messages stands. */
enum {
    SINDOVALEPH_STREAM_BETWEEN = 0, /* the next byte begins a size: a connection that ends here has ended cleanly */
    SINDOVALEPH_STREAM_SIZING = 1,  /* the first byte of a size was read */
    SINDOVALEPH_STREAM_FILLING = 2, /* a frame is gathered */
    SINDOVALEPH_STREAM_SHUT = 3     /* refused, until reset */
};

/* All fields of the fixed header. */
typedef struct {
    uint32_t xid;
    uint32_t ciaddr;
    uint32_t yiaddr;
    uint32_t siaddr;
    uint32_t giaddr;
    uint16_t secs;
    uint16_t flags;
    uint16_t sname;      /* how many bytes from 44 on stand before the first zero */
    uint16_t file;       /* how many bytes from 108 on stand before the first zero */
    uint16_t chaddr_own; /* how many bytes of chaddr lie in its field, 16 at most: print these; 0 where it is refused */
    uint8_t refused;
    uint8_t op;
    uint8_t htype;
    uint8_t hlen; /* chaddr is so many bytes from 28 on */
    uint8_t hops;
    uint8_t chaddr_refused; /* 3 where chaddr's bytes are not all there, else 0 */
    bool chaddr_spills;     /* hlen is above 16, so the bytes from 44 on are none of chaddr's; false where it is refused */
    bool wrong_magic;       /* if not, the area of options is all bytes from 240 on */
} SindovalephFields;

/* One field of the header, or what option 52 says. */
typedef struct {
    size_t refused;
    size_t number;
} SindovalephField;

/* One call of the walk: an option; or a stop, whose code, parts and len are 0. With one part the value is the `len`
   bytes of the area before `place`, with more the first `len` bytes of the join buffer. Refusal 5 says in `len` how many
   are needed. Where the parts of a code are joined over all fields, it is the same of the message in the area's place,
   and the only stop is 1, at place 0: there is no such option. */
typedef struct {
    uint8_t refused;
    uint8_t stop; /* 0 for an option */
    uint8_t code;
    size_t parts;
    size_t len;
    size_t place; /* behind the last part or the stop: where a further call of the walk goes on */
} SindovalephStep;

/* What a value reads as. As a number yes is 1, seconds are in two's complement, and of three bytes the first is the
   highest. */
typedef struct {
    uint8_t refused;
    uint8_t kind;
    uint32_t number; /* of a kind that has one */
    size_t count;    /* how many elements a list has */
} SindovalephValue;

/* An element of a list. Only a pair has a second number. */
typedef struct {
    uint8_t refused;
    uint32_t first;
    uint32_t second;
} SindovalephElement;

/* What a write answers. */
typedef struct {
    uint8_t refused;
    size_t place; /* behind what was written */
} SindovalephWritten;

/* What a listing answers. */
typedef struct {
    uint8_t refused;
    uint8_t stop; /* 0 where the rows are full */
    size_t rows;  /* how many are filled */
    size_t place; /* where a further call goes on */
} SindovalephListed;

/* What a listing of codes answers. As many rows are filled as there are codes, or as there are rows. */
typedef struct {
    uint8_t refused;
    size_t codes; /* how many there are */
} SindovalephEntries;

/* An option in a listing, in the numbers of SindovalephStep. Nothing is joined: with two parts or more the value stands
   in the area or the message alone, part by part. Rows are lent as numbers: `&rows[0].code`, and 4 for each row. */
typedef struct {
    size_t code;
    size_t parts;
    size_t len;
    size_t place;
} SindovalephRow;

/* An option in a typed listing, in the numbers of SindovalephRow and SindovalephValue: 8 numbers a row. `refused` is of
   the value alone: the option's code, parts, len and place stand, and kind, number and count are 0. Nothing is joined:
   an option of two parts or more is refused with 5, unless it is empty, and `len` says how many bytes it has. */
typedef struct {
    size_t code;
    size_t parts;
    size_t len;
    size_t place;
    size_t refused;
    size_t kind;
    size_t number;
    size_t count;
} SindovalephReadRow;

/* An option to be written, and where its value stands in the lent values: 3 numbers a row. */
typedef struct {
    size_t code;
    size_t start;
    size_t len;
} SindovalephWriteRow;

/* What a write of rows answers: all of them are written, or none. The first row that is refused decides. A refusal says
   in `rows` which row it is, 0 for the first; 0 too where the room (2) or the place (4) is refused, before any row. */
typedef struct {
    uint8_t refused;
    size_t rows;  /* how many were written */
    size_t place; /* behind them */
} SindovalephWrittenRows;

/* A classless route. Of the destination the first bytes are written as they stand, unmasked. */
typedef struct {
    uint8_t width;
    uint32_t destination;
    uint32_t gateway;
} SindovalephRoute;

/* A route that is read, if there is one. Where none is, all numbers are 0 but for a place that was given. */
typedef struct {
    uint8_t refused;
    bool found; /* not behind the last route */
    uint8_t width;
    uint32_t destination; /* masked to its width */
    uint32_t gateway;
    size_t place; /* behind the route; 0 of a route by its index */
} SindovalephReadRoute;

/* How many routes a value has. */
typedef struct {
    uint8_t refused;
    size_t count;
} SindovalephRouteCount;

/* Where a stream of messages stands, kept by the caller between two calls. Numbers that `state` does not name are 0. A
   fresh stream is all 0, and so is a reset: `SindovalephStream stream = {0};`. */
typedef struct {
    uint8_t state;
    uint8_t high;    /* sizing: the first byte of the size */
    uint16_t size;   /* filling: how many bytes the frame has */
    uint16_t filled; /* filling: how many of them stand in the buffer */
} SindovalephStream;

/* What a call over a chunk of a stream answers. A refusal moves the stream: behind 1 the next byte begins a size, and the
   frame's bytes stand at the front of the buffer; 17 leaves the buffer as it was and shuts the stream. */
typedef struct {
    uint8_t refused;
    size_t len;  /* a message is handed out, the first `len` bytes of the buffer; 0 where none is */
    size_t used; /* how many bytes of the chunk were read */
    SindovalephStream stream;
} SindovalephReceived;

/* The header, the walk, options as bytes. */

/* All fields of the header. */
SindovalephFields sindovaleph_header(const uint8_t *message, size_t message_len);

/* The transaction's number alone, for who sorts messages before reading them. */
SindovalephField sindovaleph_xid(const uint8_t *message, size_t message_len);

/* The kind of a code. */
uint8_t sindovaleph_kind_of(uint8_t code);

/* Whether bytes are UTF-8. */
bool sindovaleph_is_utf8(const uint8_t *text, size_t text_len);

/* One call of the walk at a place of an area. An option of two parts or more is joined in `join`. */
SindovalephStep sindovaleph_step(const uint8_t *area, size_t area_len, size_t place, uint8_t *join, size_t join_len);

/* Writes a byte value at a place of a room. */
SindovalephWritten sindovaleph_write_bytes(uint8_t *room, size_t room_len, size_t place, uint8_t code,
                                           const uint8_t *value, size_t value_len);

/* Writes End. */
SindovalephWritten sindovaleph_close(uint8_t *room, size_t room_len, size_t place);

/* RFC 3396's reading: all parts of one code are joined, over the options field and over file and sname, where option 52
   names them. */

/* What option 52 of the options field says: 1 file, 2 sname, 3 both; 0 where there is none. A message that it refuses, by
   2, 1, 15, 16 and 15 in this order, is refused alike by the three functions below. */
SindovalephField sindovaleph_overload(const uint8_t *message, size_t message_len);

/* What a code is in a message: an option, or stop 1 where it has no part. A code of 0 or 255 is refused with 6, before 15
   and 16. */
SindovalephStep sindovaleph_find(const uint8_t *message, size_t message_len, uint8_t code, uint8_t *join,
                                 size_t join_len);

/* The option at an index, in the order in which codes first appear; stop 1 behind the last. */
SindovalephStep sindovaleph_entry(const uint8_t *message, size_t message_len, size_t index, uint8_t *join,
                                  size_t join_len);

/* All options in that order, a SindovalephRow for each, whose place is a place of the message. A message has at most 254
   codes. */
SindovalephEntries sindovaleph_entries(const uint8_t *message, size_t message_len, size_t *rows, size_t numbers);

/* Messages out of a stream over TCP, each behind its size in two bytes, the higher first (RFC 6926, section 6.1). */

/* Reads the chunk up to the first frame that it completes, or to its end; the next call goes on behind what was used, with
   the same buffer. A frame below 240 bytes is refused with 1 at its last byte, a size above `buffer_len` with 17. A stream
   that is shut is refused with 17 until it is reset, and uses nothing. */
SindovalephReceived sindovaleph_receive(SindovalephStream stream, uint8_t *buffer, size_t buffer_len,
                                        const uint8_t *chunk, size_t chunk_len);

/* All options of an area in one call. */

/* Lists the options from a place on, a SindovalephRow for each, until the first stop or until the rows are full. */
SindovalephListed sindovaleph_list(const uint8_t *area, size_t area_len, size_t place, size_t *rows, size_t numbers);

/* Writes an option for each SindovalephWriteRow, as byte values, one behind the other: all of them, or none. A row is
   refused where its value does not stand in `values` (4), by its code (6; above 255 is no code), by its value's length
   (7), and where it does not fit behind the rows before it (8), in this order. An empty value writes nothing. */
SindovalephWrittenRows sindovaleph_write_list(uint8_t *room, size_t room_len, size_t place, const size_t *rows,
                                              size_t numbers, const uint8_t *values, size_t values_len);

/* The same with what each option reads as. */

/* Lists them plainly or strictly, a SindovalephReadRow for each. */
SindovalephListed sindovaleph_read_list(const uint8_t *area, size_t area_len, size_t place, size_t *rows,
                                        size_t numbers, bool strict);

/* Typed values. */

/* What the value of an option with this code reads as, plainly or strictly. Strict reading also asks for the exact length
   of a number, a yes/no byte, a node type, a message type, three bytes and a flag (10), for an element in a list or a
   text, except in code 68, which may have none (10), and for 0 or 1 in a yes/no byte (14). */
SindovalephValue sindovaleph_read(uint8_t code, const uint8_t *value, size_t value_len, bool strict);

/* Each of these writes a value of one kind, and takes a code of that kind. */
SindovalephWritten sindovaleph_write_address(uint8_t *room, size_t room_len, size_t place, uint8_t code,
                                             uint32_t address);
SindovalephWritten sindovaleph_write_byte(uint8_t *room, size_t room_len, size_t place, uint8_t code, uint8_t byte);
SindovalephWritten sindovaleph_write_yes_no(uint8_t *room, size_t room_len, size_t place, uint8_t code, bool yes);
SindovalephWritten sindovaleph_write_u16(uint8_t *room, size_t room_len, size_t place, uint8_t code, uint16_t number);
SindovalephWritten sindovaleph_write_u32(uint8_t *room, size_t room_len, size_t place, uint8_t code, uint32_t number);
SindovalephWritten sindovaleph_write_i32(uint8_t *room, size_t room_len, size_t place, uint8_t code, int32_t number);
SindovalephWritten sindovaleph_write_text(uint8_t *room, size_t room_len, size_t place, uint8_t code,
                                          const uint8_t *text, size_t text_len);
SindovalephWritten sindovaleph_write_node_type(uint8_t *room, size_t room_len, size_t place, uint8_t code,
                                               uint8_t byte);
SindovalephWritten sindovaleph_write_message_type(uint8_t *room, size_t room_len, size_t place, uint8_t code,
                                                  uint8_t byte);
SindovalephWritten sindovaleph_write_three_bytes(uint8_t *room, size_t room_len, size_t place, uint8_t code,
                                                 uint8_t first, uint8_t second, uint8_t third);
SindovalephWritten sindovaleph_write_flag(uint8_t *room, size_t room_len, size_t place, uint8_t code);
SindovalephWritten sindovaleph_write_addresses(uint8_t *room, size_t room_len, size_t place, uint8_t code,
                                               const uint32_t *addresses, size_t count);
SindovalephWritten sindovaleph_write_pairs(uint8_t *room, size_t room_len, size_t place, uint8_t code,
                                           const uint32_t *addresses, size_t count);
SindovalephWritten sindovaleph_write_u16s(uint8_t *room, size_t room_len, size_t place, uint8_t code,
                                          const uint16_t *u16s, size_t count);
SindovalephWritten sindovaleph_write_codes(uint8_t *room, size_t room_len, size_t place, uint8_t code,
                                           const uint8_t *codes, size_t count);

/* Writes the table of classless routes, option 121. */
SindovalephWritten sindovaleph_write_routes(uint8_t *room, size_t room_len, size_t place,
                                            const SindovalephRoute *routes, size_t count);

/* Classless routes, option 121 (RFC 3442): read, and moved from the static routes of option 33 and back. A value is
   that of one option, its parts joined. */

/* The route that begins at a place of option 121's value, refused by 2, 4, 12 and 10 in this order; none is found at
   the value's end. Called from place 0 on, and then from each place that it answers, it reads all routes. */
SindovalephReadRoute sindovaleph_route_from(const uint8_t *value, size_t value_len, size_t place);

/* The route at an index of option 121's value. All rows are checked first: refused by 2, by 12 or 10 of the first bad
   row, and then by 4 for the index. */
SindovalephReadRoute sindovaleph_route_at(const uint8_t *value, size_t value_len, size_t index);

/* How many routes option 121's value has, refused by 2, and by 12 or 10 of the first bad row. */
SindovalephRouteCount sindovaleph_count_routes(const uint8_t *value, size_t value_len);

/* Writes option 33's value, pairs of a destination and a router, as option 121. A destination has the width 8 where its
   first octet is 0 to 127 and the last three are 0; 16 where it is 128 to 191 and the last two are 0; 24 where it is
   192 to 223 and the last is 0; else 32. Refused by 2, 4 and 10 (no multiple of 8), then by 18 of the first bad pair,
   then by 7 and 8, both of the value made. An empty value writes nothing. */
SindovalephWritten sindovaleph_move_out(uint8_t *room, size_t room_len, size_t place, const uint8_t *value,
                                        size_t value_len);

/* Writes option 121's value as option 33, where each route has the width that its masked destination has above. Refused
   by 2 and 4, then by the first bad row, in the order 12, 10, 18, 19, then by 7 and 8, both of the value made. An empty
   value writes nothing. */
SindovalephWritten sindovaleph_move_back(uint8_t *room, size_t room_len, size_t place, const uint8_t *value,
                                         size_t value_len);

/* Lists, element by element. */

/* The element at an index of a list. */
SindovalephElement sindovaleph_element(uint8_t code, const uint8_t *value, size_t value_len, size_t index);

/* The listing of a message as text. */

/* Writes it at a place of a room. At place 0 a room of 65,535 bytes, the most that a room may have, takes the listing of
   any message; a listing that does not fit is refused with 8. The listing of a message that is too short or has more
   than 4,096 bytes is one line that says so, and no refusal. */
SindovalephWritten sindovaleph_write_listing(uint8_t *room, size_t room_len, size_t place, const uint8_t *message,
                                             size_t message_len);

#ifdef __cplusplus
}
#endif

#endif
