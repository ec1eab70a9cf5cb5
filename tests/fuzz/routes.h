/*
 * A route's questions in one call, made in several ways and held to the same questions asked one by one (document 02, 2026-06); and the route that
 * a fuzzer's input brings.
 */
#ifndef ROUTES_H
#define ROUTES_H

#include "input.h"

/* The hub that is asked, the numbers as they are lent, with room for one too many and bytes left over, and the length of the outcomes. */
struct route {
    uint32_t hub;
    uint8_t numbers[4 * (RING_MOST_QUESTIONS + 1) + 3];
    size_t len, outcomes_len;
};

/*
 * Takes a route, where the next byte begins one; answers whether it does. That byte is from 128 on: its lowest two bits say how the numbers come,
 * the next two how many bytes are left over behind them, the next three how long the outcomes are. Then the hub, 1 byte, from 192 on none; the
 * count, 1 byte, modulo 66; and the numbers:
 *
 *   0  4 bytes each
 *   1  at hubs' identifiers or beside them, 1 byte each
 *   2  all the same one of these, 1 byte
 *   3  all over the circle by a scheme, 1 byte
 */
int take_route(struct input *in, const struct ring *ring, struct route *r);

uint32_t checked_route(struct ring *ring, const struct route *r);

#endif
