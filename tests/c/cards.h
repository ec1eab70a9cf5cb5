/* What the tests of the calls with price cards share: rings with their cards, put together here word for word, and calls that try one. */
#ifndef CARDS_H
#define CARDS_H

#include "buffers.h"

#define MARKS 1u       /* the word of hub 0's mark */
#define FIRST_CARD 65u /* the word where the first card begins */
#define CARD_WORDS 2113u

/* A record and its cards, as they stand between calls. */
struct ring {
    uint8_t words[RING_RECORD_BYTES], cards[RING_CARDS_BYTES];
};

struct card {
    uint32_t machine, revision, price;
};

struct command {
    uint32_t operation, x, y;
};

/* Both as they are lent to one call, with an output of so many bytes; and what the call returned. */
struct call {
    struct buffer words, cards, out;
    uint32_t code;
};

/* Lengths of a card slice around the least and around whole words; and of all three that a call is lent. */
extern const size_t card_lengths[LENGTHS];
struct room {
    size_t words, cards, out;
};
extern const struct room exact;

/* Founds a ring of these hubs by one of them, without the calls that make its cards: they are put together here. */
void found(struct ring *r, const uint32_t *identifiers, size_t n, uint32_t founder);

/* The owner of a machine among the marked hubs, by looking at each; 64 where none is marked. */
uint32_t owner_of(const struct ring *r, uint32_t machine);

/* Puts a card at a place; its hub is the owner. And so many cards, all over the circle, with the count. */
void put_card(struct ring *r, size_t place, struct card card);
void put_cards(struct ring *r, size_t count);

/* Each card's hub is made the owner among the marks as they are now. */
void settle(struct ring *r);

/* The calls on copies; what is only read must be as it was, and nothing beside the buffers may be written. */
struct call step_on(const struct ring *r, struct command c, struct room room);
struct call offer_on(const struct ring *r, struct card card, struct room room);
void give_back(struct call *c);

/* Whether the call wrote nothing at all. */
int wrote_nothing(const struct call *c, const struct ring *r);

/* The step or offer is refused by this number, and nothing has changed. */
void step_refused(const struct ring *r, struct command c, uint32_t code, const char *what);
void offer_refused(const struct ring *r, struct card card, uint32_t code, const char *what);

/* A step that is accepted: record and answer are those of ring_step, and each card is with its owner. The ring goes on from there. */
uint32_t step_cards(struct ring *r, struct command c);

/* An offer that is accepted: the card stands at this place, and nothing else has changed. The ring goes on from there. */
void offer_at(struct ring *r, struct card card, size_t place);

/* Lengths (cards.c), every word that can be wrong (card_words.c), and cards on their way (card_moves.c). */
void card_words(void);
void card_moves(void);

#endif
