/* Rings with price cards for the tests, and calls on copies of them. See cards.h. */
#include "cards.h"

const size_t card_lengths[LENGTHS] = {0, 1, 3, 4, 8448, 8451, 8452, 8453, 8454, 8455, 8456, 9000};
const struct room exact = {RING_RECORD_BYTES, RING_CARDS_BYTES, RING_ANSWER_BYTES};

void found(struct ring *r, const uint32_t *identifiers, size_t n, uint32_t founder)
{
    memset(r, 0, sizeof *r);
    put(r->words, 0, 1);
    put(r->words, 1, (uint32_t)n);
    for (uint32_t hub = 0; hub < n; hub++) {
        uint32_t link = hub == founder ? hub : NONE, row[7] = {identifiers[hub], hub == founder ? RING_INSIDE : RING_OUTSIDE, 0, 0, link, link, NONE};
        for (size_t k = 0; k < 7; k++) put(r->words, 4 + 7 * (size_t)hub + k, row[k]);
    }
    put(r->cards, MARKS + founder, 1);
}

uint32_t owner_of(const struct ring *r, uint32_t machine)
{
    uint32_t best = RING_MOST_HUBS, least = 0;
    for (uint32_t hub = 0; hub < RING_MOST_HUBS; hub++) {
        uint32_t far = ring_word(r->words, 4 + 7 * (size_t)hub) - machine;
        if (ring_word(r->cards, MARKS + hub) != 1 || (best != RING_MOST_HUBS && far >= least)) continue;
        best = hub;
        least = far;
    }
    return best;
}

void put_card(struct ring *r, size_t place, struct card card)
{
    uint32_t four[4] = {card.machine, card.revision, card.price, owner_of(r, card.machine)};
    for (size_t k = 0; k < 4; k++) put(r->cards, FIRST_CARD + 4 * place + k, four[k]);
}

void put_cards(struct ring *r, size_t count)
{
    put(r->cards, 0, (uint32_t)count);
    for (uint32_t i = 0; i < count; i++) put_card(r, i, (struct card){i * 0x9E3779B1u, i % 5, i});
}

void settle(struct ring *r)
{
    for (size_t i = 0; i < ring_word(r->cards, 0); i++) {
        size_t at = FIRST_CARD + 4 * i;
        put(r->cards, at + 3, owner_of(r, ring_word(r->cards, at)));
    }
}

static struct call lend_all(const struct ring *r, struct room room)
{
    return (struct call){lend(r->words, sizeof r->words, room.words), lend(r->cards, sizeof r->cards, room.cards), lend(NULL, 0, room.out), 0};
}

struct call step_on(const struct ring *r, struct command c, struct room room)
{
    struct call m = lend_all(r, room);
    m.code = ring_step_cards(m.words.bytes, m.words.len, m.cards.bytes, m.cards.len, c.operation, c.x, c.y, m.out.bytes, m.out.len);
    expect(untouched(&m.words, sizeof r->words) && untouched(&m.cards, sizeof r->cards), "step: bytes behind record and cards");
    expect(untouched(&m.out, m.code == RING_OK ? RING_ANSWER_BYTES : 0), "step: output behind the answer, and of a refused call");
    return m;
}

struct call offer_on(const struct ring *r, struct card card, struct room room)
{
    struct call m = lend_all(r, room);
    m.code = ring_offer(m.words.bytes, m.words.len, m.cards.bytes, m.cards.len, card.machine, card.revision, card.price);
    expect(unchanged(&m.words, r->words, sizeof r->words), "offer: the record stays");
    expect(untouched(&m.cards, sizeof r->cards), "offer: bytes behind the cards");
    return m;
}

void give_back(struct call *c)
{
    free(c->words.all);
    free(c->cards.all);
    free(c->out.all);
}

int wrote_nothing(const struct call *c, const struct ring *r)
{
    return unchanged(&c->words, r->words, sizeof r->words) && unchanged(&c->cards, r->cards, sizeof r->cards) && untouched(&c->out, 0);
}

void step_refused(const struct ring *r, struct command c, uint32_t code, const char *what)
{
    struct call m = step_on(r, c, exact);
    expect(m.code == code, what);
    expect(wrote_nothing(&m, r), "a refused step changes neither record nor cards nor output");
    give_back(&m);
}

void offer_refused(const struct ring *r, struct card card, uint32_t code, const char *what)
{
    struct call m = offer_on(r, card, exact);
    expect(m.code == code, what);
    expect(wrote_nothing(&m, r), "a refused offer changes nothing");
    give_back(&m);
}

uint32_t step_cards(struct ring *r, struct command c)
{
    struct ring next = *r;
    uint8_t answer[RING_ANSWER_BYTES];
    struct call m = step_on(r, c, exact);
    expect(m.code == RING_OK, "step: accepted");
    expect(ring_step(next.words, sizeof next.words, c.operation, c.x, c.y, answer, sizeof answer) == RING_OK, "step: accepted without cards");
    uint32_t kind = ring_word(answer, 0);
    if (kind == RING_ENTERED || kind == RING_GONE) put(next.cards, MARKS + ring_word(answer, 1), kind == RING_ENTERED);
    settle(&next);
    expect(memcmp(m.words.bytes, next.words, sizeof next.words) == 0, "step: the record is the one without cards");
    expect(memcmp(m.out.bytes, answer, sizeof answer) == 0, "step: the answer is the one without cards");
    expect(memcmp(m.cards.bytes, next.cards, sizeof next.cards) == 0, "step: the hubs in the ring, and each card with its owner");
    give_back(&m);
    *r = next;
    return kind;
}

void offer_at(struct ring *r, struct card card, size_t place)
{
    struct ring next = *r;
    struct call m = offer_on(r, card, exact);
    put_card(&next, place, card);
    if (place >= ring_word(r->cards, 0)) put(next.cards, 0, (uint32_t)place + 1);
    expect(m.code == RING_OK, "offer: accepted");
    expect(memcmp(m.cards.bytes, next.cards, sizeof next.cards) == 0, "offer: the card at its place, with its owner, and nothing else");
    give_back(&m);
    *r = next;
}
