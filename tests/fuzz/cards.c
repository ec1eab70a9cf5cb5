/*
 * Fuzzes the calls with price cards: a ring and its cards from the input, then steps and offers one after the other, each on what the one before
 * left; at last one of each on buffers of lengths around the least. An input is
 *
 *   length    1 byte: which length of the cards is lent (0: the exact one)
 *   lengths   1 byte, and mode, 1 byte: as in input.h, but that modes 0 and 1 found the ring with its cards. In modes 2 and 3 the record is
 *             followed by a byte, modulo 2, that says how the cards come:
 *     0       from small fields that fit the record: members, 8 bytes; count; scheme, and with scheme 0 a byte for each machine; single words
 *     1       as they are: 2 bytes of length, then so many bytes; the rest is 0
 *   calls     to the end: commands as in input.h; a byte from 128 on begins some offers (slices.c)
 */
#include "custody.h"

#define MOST_CALLS 160
#define MOST_OFFERS 600 /* more than there are places for cards */

int LLVMFuzzerTestOneInput(const uint8_t *data, size_t size);

static void at_the_edges(const struct custody *c, struct command command, struct offer o)
{
    static const size_t lengths[][3] = {
        {RING_RECORD_BYTES - 1, RING_CARDS_BYTES, RING_ANSWER_BYTES},     {RING_RECORD_BYTES, RING_CARDS_BYTES - 1, RING_ANSWER_BYTES},
        {RING_RECORD_BYTES - 1, RING_CARDS_BYTES, RING_ANSWER_BYTES - 1}, {RING_RECORD_BYTES + 3, RING_CARDS_BYTES + 3, RING_ANSWER_BYTES + 3}};
    static struct custody other;
    for (size_t k = 0; k < sizeof lengths / sizeof *lengths; k++) {
        other = *c;
        other.ring.len = lengths[k][0];
        other.len = lengths[k][1];
        other.ring.out_len = lengths[k][2];
        checked_step_cards(&other, command);
        checked_offer(&other, o);
    }
}

/* A refusal changes nothing, so the next step would be refused too; so would the next offer, but of cards that are full. */
static unsigned offers(struct custody *c, struct offer *o, unsigned times)
{
    unsigned made = 0;
    while (made < times) {
        uint32_t code = checked_offer(c, *o);
        made++;
        o->machine++;
        if (code == RING_RECORD_SHORT || code == RING_NOT_WELL_FORMED || code == RING_CARDS_FULL) break;
    }
    return made;
}

int LLVMFuzzerTestOneInput(const uint8_t *data, size_t size)
{
    static struct custody c;
    struct input in = {data, size};
    struct command command = {RING_ASK, 0, 0};
    struct offer o = {0, 0, 0};
    unsigned steps = 0, offered = 0, times;
    if (!take_custody(&in, &c)) return 0;
    while (steps < MOST_CALLS && offered < MOST_OFFERS) {
        if ((times = take_offers(&in, &c, &o)) != 0) {
            offered += offers(&c, &o, times);
            continue;
        }
        if ((times = take_commands(&in, &c.ring, &command)) == 0) break;
        for (; times != 0 && steps < MOST_CALLS; times--, steps++)
            if (checked_step_cards(&c, command) != RING_OK) break;
    }
    at_the_edges(&c, command, o);
    return 0;
}
