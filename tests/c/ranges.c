/*
 * Whether a number is in a range (a, b], asked through the calls, at the numbers where planners' three cases meet (document 02, 2026-05). In the
 * record hub 0 is inside, and its pred is a hub that is outside, or itself where a = b: then hub 0 holds what is in the range, and no hub holds
 * anything else. The owner query says which it is, and so does a question at hub 0, which is found there or sent on.
 */
#include "buffers.h"

/* Hub 0 with identifier b, whose pred has identifier a. */
static void ranged(uint8_t *record, uint32_t a, uint32_t b)
{
    uint32_t pred = a == b ? 0 : 1;
    const uint32_t rows[2][7] = {{b, RING_INSIDE, 0, 0, pred, 0, NONE}, {a, RING_OUTSIDE, 0, 0, NONE, NONE, NONE}};
    put_rows(record, rows, pred + 1);
}

/* That both calls say so. */
static void says(uint32_t a, uint32_t b, uint32_t v, int is_in)
{
    struct buffer record = lend(NULL, 0, RING_RECORD_BYTES), out = lend(NULL, 0, RING_ANSWER_BYTES);
    ranged(record.bytes, a, b);
    uint32_t owner = ring_owner(record.bytes, record.len, v, out.bytes, out.len);
    expect(owner == (is_in ? RING_OK : RING_NO_HOLDER), "range: a holder just for what is in it");
    expect(!is_in || ring_word(out.bytes, 0) == 0, "range: hub 0 holds it");
    expect(ring_step(record.bytes, record.len, RING_ASK, 0, v, out.bytes, out.len) == RING_OK, "range: the question is accepted");
    expect(ring_word(out.bytes, 0) == (is_in ? RING_FOUND : RING_QUIET), "range: found at once just where it is in it");
    free(record.all);
    free(out.all);
}

/* Document 01's interval, by distances in 64 bits. */
static int by_distances(uint32_t a, uint32_t b, uint32_t v)
{
    const uint64_t circle = (uint64_t)1 << 32;
    uint64_t to_v = (v + circle - a) % circle, to_b = (b + circle - a) % circle;
    return a == b || (1 <= to_v && to_v <= to_b);
}

void ranges(void)
{
    static const struct {
        uint32_t a, b, v;
        int is_in;
    } probes[] = {
        {100, 200, 100, 0}, {100, 200, 101, 1}, {100, 200, 200, 1}, {100, 200, 201, 0}, {200, 100, 4294967295u, 1},
        {200, 100, 0, 1}, {200, 100, 100, 1}, {200, 100, 101, 0}, {200, 100, 200, 0}, {7, 7, 7, 1},
    };
    static const uint32_t ends[] = {0, 1, 2, 2147483647u, 2147483648u, 2147483649u, 4294967294u, 4294967295u};
    for (size_t k = 0; k < COUNT(probes); k++) says(probes[k].a, probes[k].b, probes[k].v, probes[k].is_in);
    for (size_t i = 0; i < COUNT(ends); i++) {
        for (size_t j = 0; j < COUNT(ends); j++) {
            for (size_t k = 0; k < COUNT(ends); k++) says(ends[i], ends[j], ends[k], by_distances(ends[i], ends[j], ends[k]));
        }
    }
}
