/* Finds an option whose parts stand in several fields, and prints how many bytes it takes, its value, and all codes. */
#include <stdio.h>

#include "sindovaleph.h"

/* A boot file's name in two parts (those of RFC 3396, section 8): it begins in the options field and ends in file, which
   option 52 names; and a host name that is split around another option. */
static const uint8_t message[] = {
    [0] = 2, 1, 6, [108] = 67, 6, 's', 's', '/', 'f', 'o', 'o', 255, [236] = 99, 130, 83, 99, 52, 1, 1, 67, 7,
    '/', 'd', 'i', 's', 'k', 'l', 'e', 12, 2, 'h', 'o', 53, 1, 5, 12, 2, 's', 't', 255,
};

int main(void) {
    uint8_t join[sizeof message];
    SindovalephRow rows[254];
    SindovalephStep step = sindovaleph_find(message, sizeof message, 67, NULL, 0);
    if (step.refused != SINDOVALEPH_REFUSED_JOIN_TOO_SHORT)
        return 1;
    printf("option 67 takes %zu bytes\n", step.len);
    step = sindovaleph_find(message, sizeof message, 67, join, sizeof join);
    if (step.refused || step.stop)
        return 1;
    /* With one part the value stands in the message. */
    const uint8_t *value = step.parts == 1 ? message + step.place - step.len : join;
    printf("%.*s\n", (int)step.len, (const char *)value);
    SindovalephEntries entries = sindovaleph_entries(message, sizeof message, &rows[0].code, 4 * 254);
    for (size_t at = 0; at < entries.codes; at++)
        printf("%zu%c", rows[at].code, at + 1 < entries.codes ? ' ' : '\n');
    return entries.refused;
}
