/*
 * Every word of a card slice in turn with what it may not be: the count, the marks of the hubs, the words of cards in use and of those that are
 * not. Each is 2 for a step and for an offer, and nothing changes.
 */
#include "cards.h"

/* A product by this number undoes one by 2654435769: the numbers 0, 1, 2.. times it share the high bits of that product, which say the bucket
 * in a table of machines. */
#define CROWDING 340573321u

/* Words that are neither 0 nor 1, some of which are if only a part of them is looked at. */
static const uint32_t no_marks[] = {2, 3, 255, 256, 257, 65536, 65537, 16777217u, 2147483648u, 2147483649u, 4294967295u};

static void is_damaged(const struct ring *r, const char *what)
{
    step_refused(r, (struct command){4, 0, 0}, RING_NOT_WELL_FORMED, what);
    offer_refused(r, (struct card){7, 0, 0}, RING_NOT_WELL_FORMED, what);
}

/* Of a slice that is well formed a step asks its own questions. */
static void is_well_formed(const struct ring *r, const char *what)
{
    step_refused(r, (struct command){4, 0, 0}, RING_NO_OPERATION, what);
}

static void with_word(const struct ring *r, size_t i, uint32_t value, const char *what)
{
    struct ring other = *r;
    put(other.cards, i, value);
    is_damaged(&other, what);
}

static void counts(const struct ring *r)
{
    static const uint32_t wrong[] = {0, 1, 2, 4, 5, 511, 512, 513, 514, 259, 65539, 2147483651u, 4294967295u};
    for (size_t k = 0; k < COUNT(wrong); k++) with_word(r, 0, wrong[k], "another count: 2");
}

static void marks(const struct ring *r)
{
    struct ring other = *r;
    for (size_t hub = 0; hub < RING_MOST_HUBS; hub++) {
        uint32_t mark = ring_word(r->cards, MARKS + hub);
        for (size_t k = 0; k < COUNT(no_marks); k++) with_word(r, MARKS + hub, no_marks[k], "a mark that is neither 0 nor 1: 2");
        with_word(r, MARKS + hub, 1 - mark, hub < 3 ? "a card that is not with its owner: 2" : "a member that is no hub: 2");
    }
    put(other.cards, MARKS, 0);
    put(other.cards, MARKS + 1, 0);
    is_damaged(&other, "cards without a member: 2");
    memset(other.cards, 0, sizeof other.cards);
    is_damaged(&other, "no member: 2");
    put(other.cards, MARKS + 2, 1);
    is_well_formed(&other, "one member, no card");
}

/* Words behind the last card: all of them without guard bytes, some with. */
static void unused(const struct ring *r)
{
    for (size_t i = FIRST_CARD + 12; i < CARD_WORDS; i += guard == 0 ? 1 : 13) {
        struct ring other = *r;
        put(other.cards, i, i % 2 == 0 ? 1 : 2147483648u);
        step_refused(&other, (struct command){4, 0, 0}, RING_NOT_WELL_FORMED, "an unused word that is not 0: 2");
    }
    with_word(r, FIRST_CARD + 12, 1, "the first unused word: 2");
    with_word(r, CARD_WORDS - 1, 1, "the last word: 2");
}

/* A card's own words: any revision and price will do, a hub but its owner will not, nor a machine that another card has. */
static void in_use(const struct ring *r)
{
    for (size_t i = 0; i < 3; i++) {
        size_t at = FIRST_CARD + 4 * i;
        uint32_t hub = ring_word(r->cards, at + 3);
        const uint32_t wrong[] = {(hub + 1) % 3, (hub + 2) % 3, 3, 63, 64, hub + 64, 255, hub + 256, hub + 65536, hub + 2147483648u, 4294967295u};
        for (size_t k = 0; k < COUNT(wrong); k++) with_word(r, at + 3, wrong[k], "a hub that is not the owner: 2");
        struct ring other = *r;
        put(other.cards, at + 1, 4294967295u);
        put(other.cards, at + 2, 0);
        is_well_formed(&other, "any revision and price");
        put_card(&other, (i + 1) % 3, (struct card){ring_word(r->cards, at), 9, 9});
        is_damaged(&other, "a machine twice: 2");
    }
}

/* 512 cards, and the same machine at two places: next to each other, far apart, at the ends. */
static void twice_among_many(const struct ring *full, const char *what)
{
    static const size_t steps[] = {1, 7, 255, 256, 511};
    for (size_t k = 0; k < COUNT(steps); k++) {
        for (size_t i = 0; i + steps[k] < RING_MOST_CARDS; i += 37) {
            struct ring other = *full;
            put_card(&other, i + steps[k], (struct card){ring_word(full->cards, FIRST_CARD + 4 * i), 1, 1});
            step_refused(&other, (struct command){4, 0, 0}, RING_NOT_WELL_FORMED, what);
        }
    }
    is_well_formed(full, "512 cards whose machines differ");
}

static void many(const struct ring *r)
{
    struct ring full = *r;
    put_cards(&full, RING_MOST_CARDS);
    twice_among_many(&full, "a machine twice among 512: 2");
    for (uint32_t i = 0; i < RING_MOST_CARDS; i++) put_card(&full, i, (struct card){i, 0, 0});
    twice_among_many(&full, "among neighbours: 2");
    for (uint32_t i = 0; i < RING_MOST_CARDS; i++) put_card(&full, i, (struct card){i * CROWDING, 0, 0});
    twice_among_many(&full, "among machines that are all in one bucket: 2");
    for (uint32_t i = 0; i < RING_MOST_CARDS; i++) put_card(&full, i, (struct card){i << 23, 0, 0});
    twice_among_many(&full, "among machines that differ in their highest bits alone: 2");
    for (size_t i = 0; i < RING_MOST_CARDS; i += 73) {
        size_t at = FIRST_CARD + 4 * i;
        with_word(&full, at + 3, 1 - ring_word(full.cards, at + 3), "one of 512 with another member: 2");
    }
}

/* Three hubs, of which the first two are in the ring. Hub 1 owns 0, so an unused card is no card of hub 0's. */
void card_words(void)
{
    static const uint32_t hubs[3] = {200, 100, 300};
    struct ring r;
    found(&r, hubs, 3, 1);
    put(r.cards, MARKS, 1);
    put(r.cards, 0, 3);
    put_card(&r, 0, (struct card){7, 3, 100});
    put_card(&r, 1, (struct card){150, 2, 1});
    put_card(&r, 2, (struct card){250, 1, 4294967295u});
    is_well_formed(&r, "three cards, with their owners");
    counts(&r);
    marks(&r);
    unused(&r);
    in_use(&r);
    many(&r);
}
