/*
 * The calls with price cards (document 02, 2026-04) at the edges of their buffers: record, cards and output at every length around what is
 * needed, each refusal in its order, and what a founding writes.
 */
#include "cards.h"

static const uint32_t hubs[3] = {200, 100, 300};

/* How a ring is founded: no founder is named, or this one. */
struct form {
    int named;
    uint32_t founder;
};
static const struct form forms[] = {{0, 0}, {1, 2}, {1, 3}};

/* A founding of these identifiers, with as many bytes of record and cards; the founder, or a refusal. */
static void founds(struct form form, const uint32_t *list, size_t n, struct room room, uint32_t code, uint32_t founder)
{
    struct ring r;
    uint8_t ids[4 * (RING_MOST_HUBS + 1)];
    struct buffer words = lend(NULL, 0, room.words), cards = lend(NULL, 0, room.cards), lent;
    for (size_t i = 0; i < n; i++) put(ids, i, list[i]);
    lent = lend(ids, 4 * n, 4 * n + room.cards % 4); /* bytes left over are no hub */
    uint32_t got = form.named ? ring_fresh_by_cards(words.bytes, words.len, cards.bytes, cards.len, lent.bytes, lent.len, form.founder)
                              : ring_fresh_cards(words.bytes, words.len, cards.bytes, cards.len, lent.bytes, lent.len);
    expect(got == code, "fresh with cards: what it returns");
    expect(unchanged(&lent, ids, 4 * n), "fresh with cards: the identifiers stay");
    if (code == RING_OK) {
        found(&r, list, n, founder);
        expect(unchanged(&words, r.words, sizeof r.words), "fresh with cards: the record, and nothing behind it");
        expect(unchanged(&cards, r.cards, sizeof r.cards), "fresh with cards: no card, the founder alone, and nothing behind them");
    } else {
        expect(untouched(&words, 0) && untouched(&cards, 0), "a refused founding writes nothing");
    }
    free(words.all);
    free(cards.all);
    free(lent.all);
}

/* Record and cards of each length: 1 for the record, then for the cards, then the founder. */
static void founding_at_each_length(struct form form)
{
    for (size_t i = 0; i < LENGTHS; i++) {
        for (size_t k = 0; k < LENGTHS; k++) {
            struct room room = {lengths[i], card_lengths[k], 0};
            int is_short = room.words < RING_RECORD_BYTES || room.cards < RING_CARDS_BYTES;
            uint32_t code = is_short ? RING_RECORD_SHORT : form.named && form.founder >= 3 ? RING_NO_FOUNDER : RING_OK;
            founds(form, hubs, 3, room, code, form.named ? form.founder : 1);
        }
    }
}

/* 13, then 14, then 18; and 1 before them, be it the record's or the cards'. */
static void founding_in_order(struct form form)
{
    static const struct room shorts[] = {{RING_RECORD_BYTES - 1, RING_CARDS_BYTES, 0}, {RING_RECORD_BYTES, RING_CARDS_BYTES - 1, 0}};
    uint32_t many[RING_MOST_HUBS + 1];
    for (uint32_t i = 0; i <= RING_MOST_HUBS; i++) many[i] = 7 + i * 66000000u;
    for (size_t k = 0; k < COUNT(shorts); k++) {
        founds(form, many, 0, shorts[k], RING_RECORD_SHORT, 0);
        founds(form, many, RING_MOST_HUBS + 1, shorts[k], RING_RECORD_SHORT, 0);
    }
    founds(form, many, 0, exact, RING_IDENTIFIER_COUNT, 0);
    many[RING_MOST_HUBS - 1] = many[5];
    founds(form, many, RING_MOST_HUBS + 1, exact, RING_IDENTIFIER_COUNT, 0);
    founds(form, many, RING_MOST_HUBS, exact, RING_IDENTIFIER_TWICE, 0);
    founds(form, many, RING_MOST_HUBS, shorts[0], RING_RECORD_SHORT, 0);
    founds(form, many, RING_MOST_HUBS, shorts[1], RING_RECORD_SHORT, 0);
    many[RING_MOST_HUBS - 1] = 6;
    if (!form.named) founds(form, many, RING_MOST_HUBS, exact, RING_OK, RING_MOST_HUBS - 1);
    for (uint32_t hub = 0; form.named && hub < RING_MOST_HUBS; hub++) founds((struct form){1, hub}, many, RING_MOST_HUBS, exact, RING_OK, hub);
}

/* What a call is lent decides: 17 for the output of a step, 1 for the record, 1 for the cards. */
static uint32_t by_room(struct room room, uint32_t otherwise)
{
    if (room.out < RING_ANSWER_BYTES) return RING_OUTPUT_SHORT;
    return room.words < RING_RECORD_BYTES || room.cards < RING_CARDS_BYTES ? RING_RECORD_SHORT : otherwise;
}

static void step_in(const struct ring *r, struct room room)
{
    struct call m = step_on(r, (struct command){RING_ASK, 1, 150}, room);
    expect(m.code == by_room(room, RING_OK), "step: 17 before 1");
    if (m.code == RING_OK) {
        expect(ring_word(m.out.bytes, 0) == RING_FOUND && ring_word(m.words.bytes, 3) == 1, "step: found, and counted");
        expect(unchanged(&m.cards, r->cards, sizeof r->cards), "step: a question leaves the cards");
    } else {
        expect(wrote_nothing(&m, r), "step: nothing happens after 17 or 1");
    }
    give_back(&m);
}

static void offer_in(const struct ring *r, struct room room)
{
    struct call m = offer_on(r, (struct card){150, 9, 9}, room);
    room.out = RING_ANSWER_BYTES;
    expect(m.code == by_room(room, RING_OK), "offer: 1 below 7952 bytes, or below 8452");
    if (m.code == RING_OK) expect(ring_word(m.cards.bytes, 0) == 3 && ring_word(m.cards.bytes, FIRST_CARD + 11) == 1, "offer: a card more");
    else expect(wrote_nothing(&m, r), "offer: nothing happens after 1");
    give_back(&m);
}

static void at_each_length(const struct ring *r)
{
    for (size_t i = 0; i < LENGTHS; i++) {
        for (size_t k = 0; k < LENGTHS; k++) {
            step_in(r, (struct room){lengths[i], card_lengths[k], RING_ANSWER_BYTES});
            offer_in(r, (struct room){lengths[i], card_lengths[k], 0});
        }
    }
    for (size_t len = 0; len <= 24; len++) {
        step_in(r, (struct room){RING_RECORD_BYTES + 3, RING_CARDS_BYTES + 3, len});
        step_in(r, (struct room){RING_RECORD_BYTES - 1, RING_CARDS_BYTES, len});
        step_in(r, (struct room){RING_RECORD_BYTES, RING_CARDS_BYTES - 1, len});
    }
}

/* The record's 2 is asked before the cards' 2, and both behind both 1; a step's own questions come behind them. */
static void damaged(const struct ring *r)
{
    struct ring record = *r, cards = *r;
    struct room shorter = {RING_RECORD_BYTES, RING_CARDS_BYTES - 1, RING_ANSWER_BYTES};
    put(record.words, 1987, 1);
    put(cards.cards, CARD_WORDS - 1, 1);
    step_refused(&record, (struct command){4, 9, 9}, RING_NOT_WELL_FORMED, "step: the record's 2 before 3");
    step_refused(&cards, (struct command){4, 9, 9}, RING_NOT_WELL_FORMED, "step: the cards' 2 before 3");
    step_refused(r, (struct command){4, 9, 9}, RING_NO_OPERATION, "step: 3");
    offer_refused(&record, (struct card){7, 0, 0}, RING_NOT_WELL_FORMED, "offer: the record's 2 before 22");
    offer_refused(&cards, (struct card){7, 0, 0}, RING_NOT_WELL_FORMED, "offer: the cards' 2 before 22");
    struct call step = step_on(&record, (struct command){RING_ASK, 1, 1}, shorter), offer = offer_on(&record, (struct card){7, 0, 0}, shorter);
    expect(step.code == RING_RECORD_SHORT && offer.code == RING_RECORD_SHORT, "the cards' 1 before the record's 2");
    expect(wrote_nothing(&step, &record) && wrote_nothing(&offer, &record), "1 and 2 leave everything");
    give_back(&step);
    give_back(&offer);
}

/* Every refusal of a step that this ring can have is ring_step's. */
static void refused_as_without_cards(const struct ring *r)
{
    static const struct command commands[] = {{4, 0, 0},           {4294967295u, 9, 9},  {RING_ASK, 3, 0},    {RING_ASK, 0, 0},
                                              {RING_JOIN, 0, 3},   {RING_JOIN, 1, 1},    {RING_JOIN, 0, 2},   {RING_LEAVE, 0, 0},
                                              {RING_LEAVE, 1, 0},  {RING_DELIVER, 1, 1}, {RING_DELIVER, 3, 0}};
    for (size_t k = 0; k < COUNT(commands); k++) {
        struct command c = commands[k];
        struct ring copy = *r;
        uint8_t out[RING_ANSWER_BYTES];
        uint32_t code = ring_step(copy.words, sizeof copy.words, c.operation, c.x, c.y, out, sizeof out);
        expect(code != RING_OK, "refused without cards");
        step_refused(r, c, code, "refused with cards by the same number");
    }
}

void price_cards(void)
{
    struct ring r;
    for (size_t k = 0; k < COUNT(forms); k++) founding_at_each_length(forms[k]);
    for (size_t k = 0; k < 2; k++) founding_in_order(forms[k]);
    found(&r, hubs, 3, 1);
    put(r.cards, 0, 2);
    put_card(&r, 0, (struct card){7, 3, 100});
    put_card(&r, 1, (struct card){4294967295u, 0, 4294967295u});
    at_each_length(&r);
    damaged(&r);
    refused_as_without_cards(&r);
    card_words();
    card_moves();
}
