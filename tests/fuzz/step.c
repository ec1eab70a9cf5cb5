/*
 * Fuzzes ring_step, ring_route, and the two calls that found a ring: a record from the input, then its commands one after the other, each on what
 * the one before left; at last one command more, and where there was a route one more of these, on buffers of lengths around the least. Among
 * the commands (input.h) a byte from 128 on begins a route (routes.h).
 */
#include "routes.h"

#define MOST_STEPS 600 /* more than the 256 messages of a full record need */
#define MOST_ROUTES 12 /* four fill a record */

int LLVMFuzzerTestOneInput(const uint8_t *data, size_t size);

static void step_at_the_edges(const struct ring *ring, struct command c)
{
    static const size_t lengths[][2] = {{RING_RECORD_BYTES - 1, RING_ANSWER_BYTES},     {RING_RECORD_BYTES, RING_ANSWER_BYTES - 1},
                                        {RING_RECORD_BYTES - 1, RING_ANSWER_BYTES - 1}, {RING_RECORD_BYTES + 3, RING_ANSWER_BYTES + 3}};
    static struct ring other;
    for (size_t k = 0; k < sizeof lengths / sizeof *lengths; k++) {
        other = *ring;
        other.len = lengths[k][0];
        other.out_len = lengths[k][1];
        checked_step(&other, c);
    }
}

/* A list of at least one number, so that there is a place to be short of. */
static void route_at_the_edges(const struct ring *ring, struct route r)
{
    static const size_t lengths[] = {RING_RECORD_BYTES - 1, RING_RECORD_BYTES, RING_RECORD_BYTES + 3};
    static struct ring other;
    if (r.len < 4) r.len = 4;
    size_t least = RING_PLACE_BYTES * (r.len / 4);
    for (size_t k = 0; k < 6; k++) {
        other = *ring;
        other.len = lengths[k / 2];
        r.outcomes_len = k % 2 == 0 ? least : least - 1;
        checked_route(&other, &r);
    }
}

int LLVMFuzzerTestOneInput(const uint8_t *data, size_t size)
{
    static struct ring ring;
    static struct route route;
    struct input in = {data, size};
    struct command c = {RING_ASK, 0, 0};
    unsigned steps = 0, routes = 0, times;
    if (!take_ring(&in, &ring)) return 0;
    while (steps < MOST_STEPS && routes < MOST_ROUTES) {
        if (take_route(&in, &ring, &route)) {
            checked_route(&ring, &route);
            routes++;
            continue;
        }
        if ((times = take_commands(&in, &ring, &c)) == 0) break;
        for (; times != 0 && steps < MOST_STEPS; times--, steps++)
            if (checked_step(&ring, c) != RING_OK) break; /* a refusal changes nothing, so the next one is the same */
    }
    step_at_the_edges(&ring, c);
    if (routes != 0) route_at_the_edges(&ring, route);
    return 0;
}
