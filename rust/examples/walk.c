/* Walks the options of a message, and prints the code and the length of each. */
#include <stdio.h>

#include "sindovaleph.h"

/* An ACK with a message type, a name in two parts, and End. */
static const uint8_t message[] = {
    [0] = 2, 1, 6, [236] = 99, 130, 83, 99, 53, 1, 5, 12, 2, 'h', 'o', 12, 2, 's', 't', 255,
};

int main(void) {
    uint8_t join[sizeof message];
    SindovalephFields header = sindovaleph_header(message, sizeof message);
    if (header.refused || header.wrong_magic)
        return 1;
    for (size_t place = 0;;) {
        SindovalephStep step = sindovaleph_step(message + 240, sizeof message - 240, place, join, sizeof join);
        if (step.refused || step.stop)
            return printf("stop %d at %zu\n", step.stop, step.place) < 0;
        printf("option %d has %zu bytes\n", step.code, step.len);
        place = step.place;
    }
}
