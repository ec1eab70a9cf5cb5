/*
 * The roll call, made in several ways and held to a walk along succ made here once more; the ledger of a ring from its founding on, which rolls and
 * owners are held to where no message waits (document 02, 2026-07); and the roll call that a fuzzer's input brings.
 */
#ifndef ROLLS_H
#define ROLLS_H

#include "input.h"

/* The hub from which the roll is called, and the lengths that are lent for it and for its length. */
struct roll {
    uint32_t hub;
    size_t room, length_len;
};

/*
 * Takes a roll call, where the next byte begins one; answers whether it does. That byte is from 128 on: its lowest three bits say how much room is
 * over or lacks, the next three how long the length is, and the next whether the room is for this roll or for one of all hubs. Then the hub, 1
 * byte, from 192 on none.
 */
int take_roll(struct input *in, const struct ring *ring, struct roll *r);

uint32_t checked_roll(const struct ring *ring, const struct roll *r);

/* Whether a ring's hubs are in its ledger: none of them where the ring comes from no founding, and then nothing is claimed. */
struct members {
    uint8_t in[RING_MOST_HUBS];
    uint32_t count;
};

/* The members of a ring that was just founded, and what an answer makes of them. */
struct members founder_of(const struct ring *ring);
void take_answer(struct members *m, const uint8_t *answer);

/* Where no message waits: the roll from a member, the first one from this hub on, and that numbers around it have their owners. */
void must_be_at_rest(const struct ring *ring, const struct members *m, uint32_t from);

#endif
