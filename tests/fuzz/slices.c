/* The card slice that a fuzzer's input brings, and its offers. See cards.c for how they are read. */
#include <string.h>

#include "custody.h"

static void take_length(struct input *in, struct custody *c)
{
    static const uint16_t lengths[16] = {8452, 8452, 8452, 8452, 8452, 8452, 8452, 8452, 8453, 8454, 8455, 8456, 8516, 8451, 4, 0};
    c->len = lengths[take_byte(in) % 16];
    memset(c->cards, 0, RING_CARDS_BYTES);
    memset(c->cards + RING_CARDS_BYTES, 0x3C, MOST_SLICE - RING_CARDS_BYTES);
}

/* Cards that fit: any machines, each with its owner. With scheme 0 each machine is a byte, with 255 they crowd a bucket of a table. */
static void take_cards(struct input *in, struct custody *c, uint32_t count)
{
    uint32_t scheme = take_byte(in);
    struct ledger l = marked_in(c);
    for (uint32_t i = 0; i < count && i < RING_MOST_CARDS; i++) {
        uint32_t machine = scheme == 0 ? spread(take_byte(in)) : scheme == 255 ? i * 340573321u : scheme * (i + 1) * 0x9E3779B1u;
        uint32_t card[4] = {machine, i % 4, i % 3, owner_in(&l, machine)};
        for (size_t k = 0; k < 4; k++) put_slice(c, FIRST_CARD + 4 * (size_t)i + k, card[k]);
    }
}

/* A slice from small fields: which hubs are members, a bit each; how many cards; the cards; then single words written over it. */
static void take_slice(struct input *in, struct custody *c)
{
    uint32_t n = ring_word(c->ring.bytes, 1), low = take_word(in), high = take_word(in), count = near_top(take_byte(in), RING_MOST_CARDS);
    for (uint32_t hub = 0; hub < n && hub < RING_MOST_HUBS; hub++) put_slice(c, MARKS + hub, (hub < 32 ? low >> hub : high >> (hub - 32)) & 1);
    put_slice(c, 0, count);
    take_cards(in, c, count);
    for (uint32_t patches = take_byte(in) % 4; patches != 0; patches--) {
        uint32_t at = take_byte(in);
        at |= take_byte(in) << 8;
        put_slice(c, at % SLICE_WORDS, take_word(in));
    }
}

int take_custody(struct input *in, struct custody *c)
{
    uint8_t identifiers[IDENTIFIER_ROOM];
    take_length(in, c);
    uint32_t mode = take_mode(in, &c->ring);
    if (mode < 2) {
        struct founding f = take_founding(in, mode == 1, identifiers);
        return checked_fresh_cards(c, &f) == RING_OK;
    }
    take_record(in, &c->ring, mode);
    if (take_byte(in) % 2 == 0) take_slice(in, c);
    else take_bytes(in, c->cards, MOST_SLICE);
    return 1;
}

/* A card that is kept, or the words where one would be. */
static struct offer kept(const struct custody *c, uint32_t place)
{
    uint32_t count = ring_word(c->cards, 0);
    size_t at = FIRST_CARD + 4 * (size_t)(count == 0 || count > RING_MOST_CARDS ? 0 : place % count);
    return (struct offer){ring_word(c->cards, at), ring_word(c->cards, at + 1), ring_word(c->cards, at + 2)};
}

unsigned take_offers(struct input *in, const struct custody *c, struct offer *o)
{
    if (in->left == 0 || *in->at < 128) return 0;
    uint32_t form = take_byte(in), near;
    switch (form % 4) {
    case 0: /* a kept card again, with a revision and a price that are or are not its own */
        *o = kept(c, take_byte(in) * 2 + form / 4 % 2);
        near = take_byte(in);
        o->revision += near % 3 - 1;
        o->price += near / 3 % 3 - 1;
        return 1;
    case 1: /* a machine at a hub's identifier or beside it */
        near = take_byte(in);
        o->machine = ring_word(c->ring.bytes, 4 + 7 * (size_t)(near % 64)) + near / 64 - 1;
        o->revision = take_byte(in);
        o->price = take_byte(in);
        return 1;
    case 2: /* any three numbers */
        o->machine = take_word(in);
        o->revision = take_word(in);
        o->price = take_word(in);
        return 1;
    default: /* some machines in a row */
        o->machine = spread(take_byte(in));
        o->revision = take_byte(in);
        o->price = o->revision / 2;
        return 1 + take_byte(in) / 4;
    }
}
