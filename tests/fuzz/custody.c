/* See custody.h. */
#include <stdlib.h>
#include <string.h>

#include "custody.h"
#include "made.h"

/* What a call made of its own copies. */
struct kept {
    struct made made;
    struct buffer cards;
};

/* The calls, as one of those that are compared has them. */
struct calls {
    uint32_t (*fresh)(uint8_t *, size_t, uint8_t *, size_t, const uint8_t *, size_t);
    uint32_t (*fresh_by)(uint8_t *, size_t, uint8_t *, size_t, const uint8_t *, size_t, uint32_t);
    uint32_t (*step)(uint8_t *, size_t, uint8_t *, size_t, uint32_t, uint32_t, uint32_t, uint8_t *, size_t);
    uint32_t (*offer)(const uint8_t *, size_t, uint8_t *, size_t, uint32_t, uint32_t, uint32_t);
};

static const struct calls shipped = {ring_fresh_cards, ring_fresh_by_cards, ring_step_cards, ring_offer};
static const struct calls traced = {traced_fresh_cards, traced_fresh_by_cards, traced_step_cards, traced_offer};
static const struct calls model = {model_fresh_cards, model_fresh_by_cards, model_step_cards, model_offer};

/* One call: a founding, a step or an offer. */
struct task {
    enum told call;
    const struct founding *founding;
    struct command command;
    struct offer offer;
};

static struct kept made_by(const struct calls *calls, const struct custody *c, const struct task *r, size_t guard)
{
    struct kept k = {before(&c->ring, r->call == STEP_CARDS ? c->ring.out_len : 0, guard), lend(c->cards, c->len, guard)};
    struct made *m = &k.made;
    struct buffer ids = lend(r->founding == NULL ? NULL : r->founding->identifiers, r->founding == NULL ? 0 : r->founding->len, guard);
    if (r->call == FRESH_CARDS) m->code = calls->fresh(m->words.bytes, m->words.len, k.cards.bytes, k.cards.len, ids.bytes, ids.len);
    else if (r->call == FRESH_BY_CARDS)
        m->code = calls->fresh_by(m->words.bytes, m->words.len, k.cards.bytes, k.cards.len, ids.bytes, ids.len, r->founding->founder);
    else if (r->call == STEP_CARDS)
        m->code = calls->step(m->words.bytes, m->words.len, k.cards.bytes, k.cards.len, r->command.operation, r->command.x, r->command.y,
                              m->out.bytes, m->out.len);
    else m->code = calls->offer(m->words.bytes, m->words.len, k.cards.bytes, k.cards.len, r->offer.machine, r->offer.revision, r->offer.price);
    after(m);
    must(guards_stand(&k.cards) && guards_stand(&ids), "a byte beside the cards or the identifiers was written");
    must(ids.len == 0 || memcmp(ids.bytes, r->founding->identifiers, ids.len) == 0, "the identifiers were written");
    free(ids.all);
    return k;
}

static void agree(const struct kept *first, struct kept other, const char *who)
{
    must(same_bytes(&first->cards, &other.cards), who);
    must_agree(&first->made, &other.made, who);
    free(other.cards.all);
}

/* The call, made in every way; what the archive made of it. */
static struct kept made_alike(const struct custody *c, const struct task *r)
{
    struct kept first = made_by(&shipped, c, r, GUARD);
    agree(&first, made_by(&shipped, c, r, GUARD), "cards: the same call twice, with two results");
    agree(&first, made_by(&traced, c, r, 0), "cards: the archive and the traced engine differ");
    agree(&first, made_by(&model, c, r, GUARD), "cards: engine and model differ");
    count_return(r->call, first.made.code);
    return first;
}

/* A refused call leaves both; after an accepted one they are as expected here, and the list goes on with them. */
static void go_on(struct custody *c, struct kept *k, const struct custody *expected)
{
    if (k->made.code == RING_OK) {
        must(memcmp(k->made.words.bytes, expected->ring.bytes, c->ring.len) == 0, "cards: the record is not as it has to be");
        must(memcmp(k->cards.bytes, expected->cards, c->len) == 0, "cards: the cards are not as they have to be");
        *c = *expected;
    } else {
        must_leave_all(&c->ring, &k->made);
        must(c->len == 0 || memcmp(k->cards.bytes, c->cards, c->len) == 0, "cards: a refused call changed the cards");
    }
    done(&k->made);
    free(k->cards.all);
}

static uint32_t short_of(const struct custody *c)
{
    return c->ring.len < RING_RECORD_BYTES || c->len < RING_CARDS_BYTES ? RING_RECORD_SHORT : RING_OK;
}

void put_slice(struct custody *c, size_t i, uint32_t value)
{
    for (size_t k = 0; k < 4; k++) c->cards[4 * i + k] = (uint8_t)(value >> 8 * k);
}

struct ledger marked_in(const struct custody *c)
{
    struct ledger l = {{0}, {0}, 0};
    for (uint32_t hub = 0; hub < RING_MOST_HUBS; hub++) {
        if (ring_word(c->cards, MARKS + hub) != 1) continue;
        l.hubs[l.count] = hub;
        l.identifiers[l.count++] = ring_word(c->ring.bytes, 4 + 7 * (size_t)hub);
    }
    return l;
}

uint32_t owner_in(const struct ledger *l, uint32_t machine)
{
    uint32_t best = 0;
    for (uint32_t i = 1; i < l->count; i++)
        if (l->identifiers[i] - machine < l->identifiers[best] - machine) best = i;
    return l->count == 0 ? RING_MOST_HUBS : l->hubs[best];
}

static int ascending(const void *a, const void *b)
{
    uint32_t x = *(const uint32_t *)a, y = *(const uint32_t *)b;
    return x < y ? -1 : x > y;
}

/* Whether the cards are well formed beside a record that is, looked at here once more. */
static int in_order(const struct custody *c)
{
    static const uint8_t zeros[RING_CARDS_BYTES];
    struct ledger l = marked_in(c);
    uint32_t count = ring_word(c->cards, 0), n = ring_word(c->ring.bytes, 1), machines[RING_MOST_CARDS];
    if (count > RING_MOST_CARDS || l.count == 0 || l.hubs[l.count - 1] >= n) return 0;
    for (uint32_t hub = 0; hub < RING_MOST_HUBS; hub++)
        if (ring_word(c->cards, MARKS + hub) > 1) return 0;
    size_t end = 4 * (FIRST_CARD + 4 * (size_t)count);
    if (memcmp(c->cards + end, zeros, RING_CARDS_BYTES - end) != 0) return 0;
    for (size_t i = 0; i < count; i++) {
        machines[i] = ring_word(c->cards, FIRST_CARD + 4 * i);
        if (ring_word(c->cards, FIRST_CARD + 4 * i + 3) != owner_in(&l, machines[i])) return 0;
    }
    qsort(machines, count, sizeof *machines, ascending);
    for (size_t i = 1; i < count; i++)
        if (machines[i - 1] == machines[i]) return 0;
    return 1;
}

/* What 1 and 2 of both have to say, before a call's own questions. Operation 4 is refused by 3, but asked after 2. */
static uint32_t asked_first(const struct custody *c)
{
    static uint8_t words[MOST_BYTES];
    uint8_t out[RING_ANSWER_BYTES];
    if (short_of(c) != RING_OK) return RING_RECORD_SHORT;
    memcpy(words, c->ring.bytes, c->ring.len);
    uint32_t code = ring_step(words, c->ring.len, 4, 0, 0, out, sizeof out);
    return code == RING_NO_OPERATION && in_order(c) ? RING_OK : RING_NOT_WELL_FORMED;
}

uint32_t checked_fresh_cards(struct custody *c, const struct founding *f)
{
    static struct custody next;
    struct task r = {f->named ? FRESH_BY_CARDS : FRESH_CARDS, f, {0, 0, 0}, {0, 0, 0}};
    struct kept k = made_alike(c, &r);
    uint32_t code = short_of(c), got = k.made.code, founder = 0, n = (uint32_t)(f->len / 4);
    next = *c;
    if (code == RING_OK)
        code = f->named ? ring_fresh_by(next.ring.bytes, c->ring.len, f->identifiers, f->len, f->founder)
                        : ring_fresh(next.ring.bytes, c->ring.len, f->identifiers, f->len);
    must(got == code, "fresh with cards: not the return of fresh");
    if (code == RING_OK) {
        while (founder < n && ring_word(next.ring.bytes, 4 + 7 * (size_t)founder + 1) != RING_INSIDE) founder++;
        memset(next.cards, 0, RING_CARDS_BYTES);
        put_slice(&next, MARKS + founder, 1);
    }
    go_on(c, &k, &next);
    return got;
}

/* The mark of a hub that has entered or gone, and each card with its owner. */
static void follow(struct custody *c, const uint8_t *answer)
{
    uint32_t kind = ring_word(answer, 0);
    if (kind != RING_ENTERED && kind != RING_GONE) return;
    put_slice(c, MARKS + ring_word(answer, 1), kind == RING_ENTERED);
    struct ledger l = marked_in(c);
    for (size_t i = 0; i < ring_word(c->cards, 0); i++) {
        size_t at = FIRST_CARD + 4 * i;
        put_slice(c, at + 3, owner_in(&l, ring_word(c->cards, at)));
    }
}

/* Whether the answer is gone of the only hub that is marked. */
static int of_the_only_member(const struct custody *c, const uint8_t *answer)
{
    struct ledger l = marked_in(c);
    return ring_word(answer, 0) == RING_GONE && l.count == 1 && l.hubs[0] == ring_word(answer, 1);
}

uint32_t checked_step_cards(struct custody *c, struct command command)
{
    static struct custody next;
    uint8_t answer[RING_ANSWER_BYTES];
    struct task r = {STEP_CARDS, NULL, command, {0, 0, 0}};
    struct kept k = made_alike(c, &r);
    uint32_t code = c->ring.out_len < RING_ANSWER_BYTES ? RING_OUTPUT_SHORT : asked_first(c), got = k.made.code;
    next = *c;
    if (code == RING_OK) code = ring_step(next.ring.bytes, c->ring.len, command.operation, command.x, command.y, answer, sizeof answer);
    if (code == RING_OK && of_the_only_member(c, answer)) {
        code = RING_NOT_WELL_FORMED;
        count_return(ONLY_MEMBER, got);
    }
    must(got == code, "step with cards: not the return of the step without, or of the cards");
    if (code == RING_OK) {
        must(memcmp(k.made.out.bytes, answer, sizeof answer) == 0, "step with cards: another answer than without");
        must(all_marks(k.made.out.bytes + RING_ANSWER_BYTES, k.made.out.len - RING_ANSWER_BYTES), "step with cards: output behind the answer");
        follow(&next, answer);
    }
    go_on(c, &k, &next);
    return got;
}

/* What an offer has to do to cards that are well formed. */
static uint32_t offered(struct custody *c, struct offer o)
{
    uint32_t count = ring_word(c->cards, 0), i = 0;
    while (i < count && ring_word(c->cards, FIRST_CARD + 4 * (size_t)i) != o.machine) i++;
    size_t at = FIRST_CARD + 4 * (size_t)i;
    if (i < count) {
        uint32_t revision = ring_word(c->cards, at + 1);
        if (o.revision < revision) return RING_REVISION_LOWER;
        if (o.revision == revision) return o.price == ring_word(c->cards, at + 2) ? RING_OK : RING_PRICE_DIFFERS;
    } else if (count == RING_MOST_CARDS) {
        return RING_CARDS_FULL;
    } else {
        put_slice(c, 0, count + 1);
    }
    struct ledger l = marked_in(c);
    const uint32_t card[4] = {o.machine, o.revision, o.price, owner_in(&l, o.machine)};
    for (size_t k = 0; k < 4; k++) put_slice(c, at + k, card[k]);
    return RING_OK;
}

uint32_t checked_offer(struct custody *c, struct offer o)
{
    static struct custody next;
    struct task r = {OFFER, NULL, {0, 0, 0}, o};
    struct kept k = made_alike(c, &r);
    uint32_t code = asked_first(c), got = k.made.code;
    next = *c;
    if (code == RING_OK) code = offered(&next, o);
    must(got == code, "offer: another return than the cards have");
    go_on(c, &k, &next);
    return got;
}
