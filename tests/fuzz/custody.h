/*
 * The calls with price cards, made in several ways and held to what document 02 says of them (custody.c); and the card slice that a fuzzer's
 * input brings (slices.c).
 */
#ifndef CUSTODY_H
#define CUSTODY_H

#include "input.h"

#define MARKS 1u
#define FIRST_CARD 65u
#define SLICE_WORDS (RING_CARDS_BYTES / 4u)
#define MOST_SLICE (RING_CARDS_BYTES + 64u)

/* A ring and its cards as a list of calls goes on, and the lengths that are lent. */
struct custody {
    struct ring ring;
    uint8_t cards[MOST_SLICE];
    size_t len;
};

struct offer {
    uint32_t machine, revision, price;
};

void put_slice(struct custody *c, size_t i, uint32_t value);

/* The hubs that are marked in the cards, with their identifiers. */
struct ledger {
    uint32_t hubs[RING_MOST_HUBS], identifiers[RING_MOST_HUBS], count;
};
struct ledger marked_in(const struct custody *c);

/* The owner of a machine among them; 64 where there is none. */
uint32_t owner_in(const struct ledger *l, uint32_t machine);

uint32_t checked_fresh_cards(struct custody *c, const struct founding *f);
uint32_t checked_step_cards(struct custody *c, struct command command);
uint32_t checked_offer(struct custody *c, struct offer o);

/* The ring and its cards from an input. Answers whether there are any to go on with: not after a founding that was refused. */
int take_custody(struct input *in, struct custody *c);

/* Takes the next offers, if the input goes on with some; answers how many, each of the machine behind the one before. */
unsigned take_offers(struct input *in, const struct custody *c, struct offer *o);

#endif
