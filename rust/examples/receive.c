/* Reads messages out of a stream that comes in pieces of 7 bytes, as a socket might give it, and prints the first option
   of each. */
#include <stdio.h>

#include "sindovaleph.h"

/* A message of 244 bytes behind its size, with the option 53; a frame of 3 bytes; and a message that is cut. */
static const uint8_t sent[] = {
    [1] = 244, 2, 1, 6, [238] = 99, 130, 83, 99, 53, 1, 13, 255, 0, 3, 7, 8, 9, 0, 244, 2, 1,
};

static void print_message(const uint8_t *message, size_t len) {
    SindovalephStep step = sindovaleph_step(message + 240, len - 240, 0, NULL, 0);
    printf("a message of %zu bytes: option %d, %zu bytes\n", len, step.code, step.len);
}

/* Reads one piece, and answers where the stream then stands. A piece may complete several frames, one a call. */
static SindovalephStream read_piece(SindovalephStream stream, uint8_t *buffer, size_t buffer_len, const uint8_t *piece,
                                    size_t len) {
    while (len > 0 && stream.state != SINDOVALEPH_STREAM_SHUT) {
        SindovalephReceived received = sindovaleph_receive(stream, buffer, buffer_len, piece, len);
        if (received.refused)
            printf("a frame is refused by %d\n", received.refused);
        if (received.len > 0)
            print_message(buffer, received.len);
        stream = received.stream;
        piece += received.used;
        len -= received.used;
    }
    return stream;
}

int main(void) {
    uint8_t buffer[4096];
    SindovalephStream stream = {0};
    for (size_t at = 0; at < sizeof sent; at += 7) {
        size_t left = sizeof sent - at;
        stream = read_piece(stream, buffer, sizeof buffer, sent + at, left < 7 ? left : 7);
    }
    if (stream.state == SINDOVALEPH_STREAM_FILLING)
        printf("the stream ends within a frame: %d of %d bytes\n", stream.filled, stream.size);
    return 0;
}
