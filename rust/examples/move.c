/* Moves the static routes of a stored profile, option 33, to option 121 and back, and prints both, and each route. */
#include <stdio.h>

#include "sindovaleph.h"

/* A network and a host, each behind the router 192.0.2.1. */
static const uint8_t pairs[] = {10, 0, 0, 0, 192, 0, 2, 1, 172, 16, 5, 9, 192, 0, 2, 1};

/* A route to everywhere, which option 33 has not. */
static const uint8_t default_route[] = {0, 192, 0, 2, 1};

/* Prints the option at the front of a room, and answers its value. Here it has one part, behind its code and length. */
static const uint8_t *print_option(const uint8_t *room, size_t place) {
    printf("option %d:", room[0]);
    for (size_t at = 2; at < place; at++)
        printf(" %d", room[at]);
    printf("\n");
    return room + 2;
}

static void print_address(uint32_t address) {
    printf("%u.%u.%u.%u", address >> 24, address >> 16 & 255, address >> 8 & 255, address & 255);
}

static void print_routes(const uint8_t *value, size_t len) {
    SindovalephReadRoute route = sindovaleph_route_from(value, len, 0);
    while (route.found) {
        print_address(route.destination);
        printf("/%d via ", route.width);
        print_address(route.gateway);
        printf("\n");
        route = sindovaleph_route_from(value, len, route.place);
    }
}

int main(void) {
    uint8_t room[64], old_room[64];
    SindovalephWritten out = sindovaleph_move_out(room, sizeof room, 0, pairs, sizeof pairs);
    if (out.refused)
        return 1;
    const uint8_t *routes = print_option(room, out.place);
    print_routes(routes, out.place - 2);
    SindovalephWritten back = sindovaleph_move_back(old_room, sizeof old_room, 0, routes, out.place - 2);
    if (back.refused)
        return 1;
    print_option(old_room, back.place);
    back = sindovaleph_move_back(old_room, sizeof old_room, back.place, default_route, sizeof default_route);
    printf("a default route is refused by %d\n", back.refused);
    return 0;
}
