/*
 * The limit that compare/bench measures against: the walk, the listings, the typed reading, the look at UTF-8 and the moves
 * between options 33 and 121, written by hand in C with the same checks and the same answers as the library. Nothing but the
 * measuring uses it.
 */
#include "sindovaleph.h"

#include <string.h>

#define MOST_BYTES 65535
#define MOST_VALUE 4080
#define END 255
#define HOME_AGENTS 68
#define RARE(test) __builtin_expect(test, 0)
#define IN_PLACE static inline __attribute__((always_inline))
#define APART static __attribute__((noinline))

/* UTF-8: past the ASCII bytes in front, eight at a time, then character by character (RFC 3629, section 4). */

static bool tail(uint8_t byte)
{
    return (int8_t)byte < -64;
}

bool limit_is_utf8(const uint8_t *s, size_t n)
{
    size_t i = 0;
    for (; n - i >= 8; i += 8) {
        uint64_t word;
        memcpy(&word, s + i, 8);
        if (word & 0x8080808080808080u)
            break;
    }
    while (i < n) {
        uint8_t a = s[i];
        if (a < 0x80) {
            i++;
        } else if (a < 0xe0) {
            if (a < 0xc2 || n - i < 2 || !tail(s[i + 1]))
                return false;
            i += 2;
        } else if (a < 0xf0) {
            if (n - i < 3 || !tail(s[i + 1]) || !tail(s[i + 2]) || (a == 0xe0 && s[i + 1] < 0xa0) ||
                (a == 0xed && s[i + 1] > 0x9f))
                return false;
            i += 3;
        } else {
            if (a > 0xf4 || n - i < 4 || !tail(s[i + 1]) || !tail(s[i + 2]) || !tail(s[i + 3]) ||
                (a == 0xf0 && s[i + 1] < 0x90) || (a == 0xf4 && s[i + 1] > 0x8f))
                return false;
            i += 4;
        }
    }
    return true;
}

/* The typed reading: the kind of a code out of a table, then an arm for each kind. */

static const uint8_t KINDS[256] = {
    [1] = 1,    [2] = 9,    [3] = 2,    [4] = 2,    [5] = 2,    [6] = 2,    [7] = 2,    [8] = 2,    [9] = 2,
    [10] = 2,   [11] = 2,   [12] = 10,  [13] = 6,   [14] = 10,  [15] = 10,  [16] = 1,   [17] = 10,  [18] = 10,
    [19] = 5,   [20] = 5,   [21] = 3,   [22] = 6,   [23] = 4,   [24] = 8,   [25] = 7,   [26] = 6,   [27] = 5,
    [28] = 1,   [29] = 5,   [30] = 5,   [31] = 5,   [32] = 1,   [33] = 3,   [34] = 5,   [35] = 8,   [36] = 5,
    [37] = 4,   [38] = 8,   [39] = 5,   [40] = 10,  [41] = 2,   [42] = 2,   [44] = 2,   [45] = 2,   [46] = 12,
    [47] = 10,  [48] = 2,   [49] = 2,   [50] = 1,   [51] = 8,   [52] = 4,   [53] = 13,  [54] = 1,   [55] = 11,
    [56] = 10,  [57] = 6,   [58] = 8,   [59] = 8,   [62] = 10,  [64] = 10,  [65] = 2,   [68] = 2,   [69] = 2,
    [70] = 2,   [71] = 2,   [72] = 2,   [73] = 2,   [74] = 2,   [75] = 2,   [76] = 2,   [80] = 15,  [89] = 2,
    [91] = 8,   [92] = 2,   [93] = 6,   [94] = 14,  [100] = 10, [101] = 10, [106] = 8,  [114] = 10, [118] = 1,
    [150] = 1,  [152] = 8,  [153] = 8,  [154] = 8,  [155] = 8,
};

static uint32_t big_endian(const uint8_t *bytes)
{
    uint32_t number;
    memcpy(&number, bytes, 4);
    return __builtin_bswap32(number);
}

static SindovalephValue refused_value(uint8_t number)
{
    return (SindovalephValue){number, 0, 0, 0};
}

static SindovalephValue number_of(uint8_t kind, uint32_t number)
{
    return (SindovalephValue){0, kind, number, 0};
}

/* `some`: the list has an element at least. */
static SindovalephValue list_of(uint8_t kind, size_t n, size_t element, bool some)
{
    return n % element || (some && n == 0) ? refused_value(10) : (SindovalephValue){0, kind, 0, n / element};
}

static bool wrong_size(size_t n, size_t size, bool strict)
{
    return strict ? n != size : n < size;
}

IN_PLACE SindovalephValue read_value(uint8_t code, const uint8_t *v, size_t n, bool strict)
{
    uint8_t kind = KINDS[code];
    switch (kind) {
    case SINDOVALEPH_KIND_ADDRESS:
        return n != 4 ? refused_value(10) : number_of(kind, big_endian(v));
    case SINDOVALEPH_KIND_ADDRESSES:
        return list_of(kind, n, 4, strict && code != HOME_AGENTS);
    case SINDOVALEPH_KIND_PAIRS:
        return list_of(kind, n, 8, strict);
    case SINDOVALEPH_KIND_U16S:
        return list_of(kind, n, 2, strict);
    case SINDOVALEPH_KIND_CODES:
        return list_of(kind, n, 1, strict);
    case SINDOVALEPH_KIND_BYTE:
    case SINDOVALEPH_KIND_NODE_TYPE:
    case SINDOVALEPH_KIND_MESSAGE_TYPE:
        return wrong_size(n, 1, strict) ? refused_value(10) : number_of(kind, v[0]);
    case SINDOVALEPH_KIND_YES_NO:
        if (wrong_size(n, 1, strict))
            return refused_value(10);
        return strict && v[0] > 1 ? refused_value(14) : number_of(kind, v[0] == 1);
    case SINDOVALEPH_KIND_U16:
        return wrong_size(n, 2, strict) ? refused_value(10) : number_of(kind, (uint32_t)v[0] << 8 | v[1]);
    case SINDOVALEPH_KIND_U32:
    case SINDOVALEPH_KIND_I32:
        return wrong_size(n, 4, strict) ? refused_value(10) : number_of(kind, big_endian(v));
    case SINDOVALEPH_KIND_THREE_BYTES:
        return wrong_size(n, 3, strict) ? refused_value(10)
                                        : number_of(kind, (uint32_t)v[0] << 16 | (uint32_t)v[1] << 8 | v[2]);
    case SINDOVALEPH_KIND_TEXT:
        if (strict && n == 0)
            return refused_value(10);
        return limit_is_utf8(v, n) ? number_of(kind, 0) : refused_value(11);
    case SINDOVALEPH_KIND_FLAG:
        return strict && n ? refused_value(10) : number_of(kind, 0);
    default:
        return number_of(kind, 0);
    }
}

SindovalephValue limit_read(uint8_t code, const uint8_t *value, size_t value_len, bool strict)
{
    if (value_len > MOST_BYTES)
        return refused_value(2);
    if (code == 0 || code == END)
        return refused_value(6);
    return read_value(code, value, value_len, strict);
}

/* One call of the walk. An option of several parts is counted and joined apart. */

APART SindovalephStep several(const uint8_t *area, size_t n, size_t place, size_t at, uint8_t *join, size_t join_len)
{
    uint8_t code = area[at];
    size_t parts = 1, len = area[at + 1], next = at + 2 + len, i = next;
    while (i < n && area[i] == code) {
        if (n - i < 2 || area[i + 1] > n - i - 2)
            return (SindovalephStep){0, 5, 0, 0, 0, next};
        parts++;
        len += area[i + 1];
        i += 2 + area[i + 1];
    }
    if (len > join_len)
        return (SindovalephStep){5, 0, 0, 0, len, place};
    for (size_t k = at; k < i; k += 2 + area[k + 1]) {
        memcpy(join, area + k + 2, area[k + 1]);
        join += area[k + 1];
    }
    return (SindovalephStep){0, 0, code, parts, len, i};
}

SindovalephStep limit_step(const uint8_t *area, size_t n, size_t place, uint8_t *join, size_t join_len)
{
    if (RARE(n > MOST_BYTES))
        return (SindovalephStep){2, 0, 0, 0, 0, place};
    if (RARE(place > n))
        return (SindovalephStep){4, 0, 0, 0, 0, place};
    size_t at = place;
    while (at < n && area[at] == 0)
        at++;
    if (at >= n)
        return (SindovalephStep){0, 1, 0, 0, 0, at};
    uint8_t code = area[at];
    if (code == END)
        return (SindovalephStep){0, 2, 0, 0, 0, at + 1};
    if (n - at < 2)
        return (SindovalephStep){0, 3, 0, 0, 0, at + 1};
    size_t len = area[at + 1];
    if (len > n - at - 2)
        return (SindovalephStep){0, 4, 0, 0, 0, at + 2};
    size_t next = at + 2 + len;
    if (RARE(next < n && area[next] == code))
        return several(area, n, place, at, join, join_len);
    return (SindovalephStep){0, 0, code, 1, len, next};
}

/* All options in one call: rows of four numbers, and of eight with what each option reads as. */

IN_PLACE SindovalephListed listed(const uint8_t *area, size_t n, size_t place, size_t *rows, size_t numbers,
                                  size_t width, bool strict)
{
    if (n > MOST_BYTES)
        return (SindovalephListed){2, 0, 0, place};
    if (place > n)
        return (SindovalephListed){4, 0, 0, place};
    size_t k = 0, at = place;
    for (; numbers - k >= width; k += width) {
        while (at < n && area[at] == 0)
            at++;
        if (at >= n)
            return (SindovalephListed){0, 1, k / width, at};
        uint8_t code = area[at];
        if (code == END)
            return (SindovalephListed){0, 2, k / width, at + 1};
        if (n - at < 2)
            return (SindovalephListed){0, 3, k / width, at + 1};
        size_t len = area[at + 1], parts = 1;
        if (len > n - at - 2)
            return (SindovalephListed){0, 4, k / width, at + 2};
        size_t next = at + 2 + len, i = next;
        while (RARE(i < n && area[i] == code)) {
            if (n - i < 2 || area[i + 1] > n - i - 2)
                return (SindovalephListed){0, 5, k / width, next};
            parts++;
            len += area[i + 1];
            i += 2 + area[i + 1];
        }
        rows[k] = code;
        rows[k + 1] = parts;
        rows[k + 2] = len;
        rows[k + 3] = i;
        if (width == 8) {
            SindovalephValue value =
                parts > 1 && len > 0 ? refused_value(5) : read_value(code, area + i - len, len, strict);
            rows[k + 4] = value.refused;
            rows[k + 5] = value.kind;
            rows[k + 6] = value.number;
            rows[k + 7] = value.count;
        }
        at = i;
    }
    return (SindovalephListed){0, 0, k / width, at};
}

SindovalephListed limit_list(const uint8_t *area, size_t n, size_t place, size_t *rows, size_t numbers)
{
    return listed(area, n, place, rows, numbers, 4, false);
}

SindovalephListed limit_read_list(const uint8_t *area, size_t n, size_t place, size_t *rows, size_t numbers,
                                  bool strict)
{
    return listed(area, n, place, rows, numbers, 8, strict);
}

/* The moves between options 33 and 121 (RFC 3442): all rows are checked, and then written. */

static uint32_t masked(const uint8_t *destination, uint8_t width)
{
    return width == 0 ? 0 : big_endian(destination) & UINT32_MAX << (32 - width);
}

static uint8_t width_for(uint32_t destination)
{
    if (destination < 0x80000000u)
        return destination & 0xffffff ? 32 : 8;
    if (destination < 0xc0000000u)
        return destination & 0xffff ? 32 : 16;
    return destination < 0xe0000000u && !(destination & 0xff) ? 24 : 32;
}

static bool barred(uint32_t destination)
{
    return destination == 0 || destination >= 0xe0000000u;
}

static SindovalephWritten refused_write(uint8_t number, size_t place)
{
    return (SindovalephWritten){number, place};
}

/* Whether a value that was made may be written: 7, then 8, 0 where it may. */
static uint8_t value_refused(size_t len, size_t part, size_t left)
{
    if (len > MOST_VALUE)
        return 7;
    return len + 2 * ((len + part - 1) / part) > left ? 8 : 0;
}

/* Where a value is written first: behind room for the heads of all its parts. */
static uint8_t *unheaded(uint8_t *room, size_t place, size_t len, size_t part)
{
    return room + place + 2 * ((len + part - 1) / part);
}

/* Moves the parts of such a value to where they belong, each behind its head. */
static SindovalephWritten headed(uint8_t *room, size_t place, size_t len, uint8_t code, size_t part)
{
    const uint8_t *from = unheaded(room, place, len, part);
    while (len > 0) {
        size_t n = len < part ? len : part;
        room[place] = code;
        room[place + 1] = (uint8_t)n;
        memmove(room + place + 2, from, n);
        from += n;
        place += 2 + n;
        len -= n;
    }
    return (SindovalephWritten){0, place};
}

SindovalephWritten limit_move_out(uint8_t *room, size_t room_len, size_t place, const uint8_t *v, size_t n)
{
    if (n > MOST_BYTES || room_len > MOST_BYTES)
        return refused_write(2, place);
    if (place > room_len)
        return refused_write(4, place);
    if (n % 8)
        return refused_write(10, place);
    size_t len = 0;
    for (size_t i = 0; i < n; i += 8) {
        uint32_t destination = big_endian(v + i);
        if (barred(destination))
            return refused_write(18, place);
        len += 5 + width_for(destination) / 8;
    }
    uint8_t refused = value_refused(len, 255, room_len - place);
    if (refused)
        return refused_write(refused, place);
    uint8_t *at = unheaded(room, place, len, 255);
    for (size_t i = 0; i < n; i += 8) {
        uint8_t width = width_for(big_endian(v + i));
        *at = width;
        memcpy(at + 1, v + i, 4);
        at += 1 + width / 8;
        memcpy(at, v + i + 4, 4);
        at += 4;
    }
    return headed(room, place, len, 121, 255);
}

SindovalephWritten limit_move_back(uint8_t *room, size_t room_len, size_t place, const uint8_t *v, size_t n)
{
    if (n > MOST_BYTES || room_len > MOST_BYTES)
        return refused_write(2, place);
    if (place > room_len)
        return refused_write(4, place);
    size_t len = 0;
    for (size_t i = 0; i < n; len += 8) {
        uint8_t width = v[i];
        if (width > 32)
            return refused_write(12, place);
        size_t row = 5 + (width + 7) / 8;
        if (row > n - i)
            return refused_write(10, place);
        uint32_t destination = masked(v + i + 1, width);
        if (barred(destination))
            return refused_write(18, place);
        if (width != width_for(destination))
            return refused_write(19, place);
        i += row;
    }
    uint8_t refused = value_refused(len, 248, room_len - place);
    if (refused)
        return refused_write(refused, place);
    uint8_t *at = unheaded(room, place, len, 248);
    for (size_t i = 0; i < n; at += 8) {
        uint8_t width = v[i];
        uint32_t destination = __builtin_bswap32(masked(v + i + 1, width));
        i += 1 + width / 8;
        memcpy(at, &destination, 4);
        memcpy(at + 4, v + i, 4);
        i += 4;
    }
    return headed(room, place, len, 33, 248);
}
