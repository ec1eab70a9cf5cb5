/*
 * Fuzzes ring_owner and ring_roll: on a record from the input, again after each command that changed it, and at last on buffers of lengths around
 * the least. Among the commands (input.h) a byte from 128 on begins a roll call (rolls.h). A ring from its founding on has a ledger beside it.
 */
#include "rolls.h"

#define MOST_QUERIES 64

int LLVMFuzzerTestOneInput(const uint8_t *data, size_t size);

static void owner_at_the_edges(const struct ring *ring, uint32_t number)
{
    static const size_t lengths[][2] = {{RING_RECORD_BYTES - 1, RING_OWNER_BYTES},     {RING_RECORD_BYTES, RING_OWNER_BYTES - 1},
                                        {RING_RECORD_BYTES - 1, RING_OWNER_BYTES - 1}, {RING_RECORD_BYTES + 3, RING_OWNER_BYTES}};
    static struct ring other;
    for (size_t k = 0; k < sizeof lengths / sizeof *lengths; k++) {
        other = *ring;
        other.len = lengths[k][0];
        other.out_len = lengths[k][1];
        checked_owner(&other, number);
    }
}

/* From the same hub: a record that is too short, room that may be, a length that is, two of these, and more of the record. */
static void roll_at_the_edges(const struct ring *ring, struct roll r)
{
    static const size_t lengths[][3] = {{RING_RECORD_BYTES - 1, 0, RING_LENGTH_BYTES},
                                        {RING_RECORD_BYTES, 1, RING_LENGTH_BYTES},
                                        {RING_RECORD_BYTES, 0, RING_LENGTH_BYTES - 1},
                                        {RING_RECORD_BYTES - 1, 0, RING_LENGTH_BYTES - 1},
                                        {RING_RECORD_BYTES + 3, 0, RING_LENGTH_BYTES + 3}};
    static struct ring other;
    size_t room = r.room;
    for (size_t k = 0; k < sizeof lengths / sizeof *lengths; k++) {
        other = *ring;
        other.len = lengths[k][0];
        r.room = room < lengths[k][1] ? 0 : room - lengths[k][1];
        r.length_len = lengths[k][2];
        checked_roll(&other, &r);
    }
}

/* One command, and both queries about it. */
static void query_after(struct ring *ring, struct command c, struct members *m)
{
    uint8_t answer[RING_ANSWER_BYTES];
    struct roll r = {c.x, RING_ROLL_BYTES, RING_LENGTH_BYTES};
    if (ring_step(ring->bytes, ring->len, c.operation, c.x, c.y, answer, sizeof answer) == RING_OK) {
        take_answer(m, answer);
        must_be_at_rest(ring, m, c.x);
    }
    uint32_t own = ring_word(ring->bytes, 4 + 7 * (size_t)(c.x % 64));
    checked_owner(ring, c.y);
    checked_owner(ring, own + c.y % 3 - 1);
    checked_roll(ring, &r);
}

int LLVMFuzzerTestOneInput(const uint8_t *data, size_t size)
{
    static struct ring ring;
    struct input in = {data, size};
    struct command c = {RING_ASK, 0, 0};
    struct members m = {{0}, 0};
    struct roll r = {0, 4, RING_LENGTH_BYTES};
    int taken = take_ring(&in, &ring);
    if (!taken) return 0;
    if (taken == FOUNDED) m = founder_of(&ring);
    if (ring.out_len >= RING_ANSWER_BYTES - RING_OWNER_BYTES) ring.out_len -= RING_ANSWER_BYTES - RING_OWNER_BYTES; /* exact ones are 4 here */
    checked_owner(&ring, ring_word(ring.bytes, 4));
    for (unsigned queries = 0; queries < MOST_QUERIES; queries++) {
        if (take_roll(&in, &ring, &r)) checked_roll(&ring, &r);
        else if (take_commands(&in, &ring, &c) != 0) query_after(&ring, c, &m);
        else break;
    }
    owner_at_the_edges(&ring, c.y);
    roll_at_the_edges(&ring, r);
    return 0;
}
