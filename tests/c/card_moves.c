/*
 * Cards on their way: offers that are kept, replaced or refused, cards that change hub where one enters or goes, as many cards as there are places,
 * and the last question of a step, on records that no ring comes to.
 */
#include "cards.h"

#define LOOKUP 1u
#define JOIN 2u
#define LEAVEPOINT 11u

/* Hub i of n, clockwise in the order of their numbers. */
static uint32_t identifier(uint32_t n, uint32_t hub)
{
    return 1000 + (uint32_t)(((uint64_t)hub << 32) / n);
}

static void put_row(struct ring *r, uint32_t hub, const uint32_t *row)
{
    for (size_t k = 0; k < 7; k++) put(r->words, 4 + 7 * (size_t)hub + k, row[k]);
}

/* n hubs inside, all of them in the cards, and so many cards. */
static void settled(struct ring *r, uint32_t n, size_t count)
{
    uint32_t identifiers[RING_MOST_HUBS] = {0};
    for (uint32_t hub = 0; hub < n; hub++) identifiers[hub] = identifier(n, hub);
    found(r, identifiers, n, 0);
    for (uint32_t hub = 0; hub < n; hub++) {
        uint32_t row[7] = {identifiers[hub], RING_INSIDE, 0, 0, (hub + n - 1) % n, (hub + 1) % n, NONE};
        put_row(r, hub, row);
        put(r->cards, MARKS + hub, 1);
    }
    put_cards(r, count);
}

static size_t kept_by(const struct ring *r, uint32_t hub)
{
    size_t kept = 0;
    for (size_t i = 0; i < ring_word(r->cards, 0); i++) kept += ring_word(r->cards, FIRST_CARD + 4 * i + 3) == hub;
    return kept;
}

/* Commands one after the other; the answers that are expected of them. */
static void goes(struct ring *r, const uint32_t (*commands)[4], size_t count)
{
    for (size_t k = 0; k < count; k++)
        expect(step_cards(r, (struct command){commands[k][0], commands[k][1], commands[k][2]}) == commands[k][3], "the kind of the answer");
}

/* A hub leaves and joins again: its cards go to the next one, and come back. */
static void swap(uint32_t n, size_t count, uint32_t hub)
{
    uint32_t p = (hub + n - 1) % n, s = (hub + 1) % n;
    const uint32_t leave[][4] = {{RING_LEAVE, hub, 0, RING_QUIET}, {RING_DELIVER, hub, s, RING_QUIET}, {RING_DELIVER, s, hub, RING_QUIET}};
    const uint32_t gone[][4] = {{RING_DELIVER, hub, s, RING_GONE}};
    const uint32_t left[][4] = {{RING_DELIVER, s, p, RING_QUIET}, {RING_DELIVER, p, hub, RING_LEFT}, {RING_DELIVER, hub, s, RING_QUIET}};
    const uint32_t join[][4] = {{RING_JOIN, hub, s, RING_QUIET}};
    const uint32_t entered[][4] = {{RING_DELIVER, hub, s, RING_ENTERED}};
    const uint32_t joined[][4] = {{RING_DELIVER, s, hub, RING_QUIET}, {RING_DELIVER, hub, p, RING_QUIET}, {RING_DELIVER, p, s, RING_QUIET},
                                  {RING_DELIVER, s, hub, RING_JOINED}};
    struct ring r, before;
    settled(&r, n, count);
    before = r;
    size_t own = kept_by(&r, hub), next = kept_by(&r, s);
    goes(&r, leave, COUNT(leave));
    expect(memcmp(r.cards, before.cards, sizeof r.cards) == 0, "until the hub is gone, no card moves");
    goes(&r, gone, COUNT(gone));
    expect(kept_by(&r, hub) == 0 && kept_by(&r, s) == own + next, "its cards are with the next hub");
    goes(&r, left, COUNT(left));
    goes(&r, join, COUNT(join));
    expect(kept_by(&r, hub) == 0, "until the hub has entered, no card moves");
    goes(&r, entered, COUNT(entered));
    expect(memcmp(r.cards, before.cards, sizeof r.cards) == 0, "where the hub has entered, all cards are as before");
    goes(&r, joined, COUNT(joined));
}

/* Cards at each hub's identifier and beside it: the first is the hub's own, so is the one before it; the one behind it is the next hub's. */
static void beside_each_hub(uint32_t n)
{
    struct ring r;
    settled(&r, n, 0);
    for (uint32_t hub = 0; hub < n; hub++) {
        uint32_t own = identifier(n, hub), at = ring_word(r.cards, 0);
        offer_at(&r, (struct card){own, hub, 1}, at);
        offer_at(&r, (struct card){own - 1, hub, 2}, at + 1);
        offer_at(&r, (struct card){own + 1, hub, 3}, at + 2);
        expect(ring_word(r.cards, FIRST_CARD + 4 * at + 3) == hub, "a machine at a hub's identifier is its own");
        expect(ring_word(r.cards, FIRST_CARD + 4 * at + 11) == (hub + 1) % n, "one behind it is the next hub's");
    }
}

/* Whose a card is says the order of the members' identifiers, and nothing that the rows point at: here all hubs point backwards, or at themselves. */
static void whatever_the_rows_say(uint32_t n)
{
    struct ring r;
    for (uint32_t back = 0; back < 2; back++) {
        settled(&r, n, 60);
        for (uint32_t hub = 0; hub < n; hub++) {
            uint32_t row[7] = {identifier(n, hub), RING_INSIDE, 0, 0, (hub + back) % n, (hub + n - back) % n, NONE};
            put_row(&r, hub, row);
        }
        offer_at(&r, (struct card){identifier(n, n - 1) + 1, 1, 1}, 60);
        step_refused(&r, (struct command){4, 0, 0}, RING_NO_OPERATION, "the cards are well formed");
    }
}

/* The card at a place, offered in every way there is, with that many cards kept. */
static void offered_again(struct ring *r, size_t place)
{
    size_t at = FIRST_CARD + 4 * place;
    struct card kept = {ring_word(r->cards, at), ring_word(r->cards, at + 1), ring_word(r->cards, at + 2)};
    offer_at(r, kept, place);
    offer_refused(r, (struct card){kept.machine, kept.revision, kept.price + 1}, RING_PRICE_DIFFERS, "another price: 23");
    offer_at(r, (struct card){kept.machine, kept.revision + 1, kept.price}, place);
    offer_refused(r, kept, RING_REVISION_LOWER, "a lower revision: 22");
    offer_refused(r, (struct card){kept.machine, kept.revision, kept.price + 1}, RING_REVISION_LOWER, "22 is asked before 23");
    offer_at(r, (struct card){kept.machine, 4294967295u, 0}, place);
    offer_refused(r, (struct card){kept.machine, 4294967294u, 0}, RING_REVISION_LOWER, "a revision lower by one: 22");
    offer_refused(r, (struct card){kept.machine, 0, 0}, RING_REVISION_LOWER, "the lowest revision: 22");
    offer_refused(r, (struct card){kept.machine, 4294967295u, 4294967295u}, RING_PRICE_DIFFERS, "the highest revision, another price: 23");
}

/* 511 cards, then 512: one more is 24, and a machine that has its card is asked 22 and 23 only. */
static void as_many_as_there_are_places(uint32_t n)
{
    static const size_t places[] = {0, 1, 255, 510, 511};
    struct ring r;
    settled(&r, n, RING_MOST_CARDS - 1);
    offer_at(&r, (struct card){3, 0, 0}, RING_MOST_CARDS - 1);
    offer_refused(&r, (struct card){4, 4294967295u, 0}, RING_CARDS_FULL, "a new machine with 512 cards: 24");
    for (size_t k = 0; k < COUNT(places); k++) offered_again(&r, places[k]);
    offer_refused(&r, (struct card){4, 0, 0}, RING_CARDS_FULL, "24 still");
}

/* A step's own questions that a ring has not come to elsewhere: 256 questions wait, all tickets are given, a hub is locked. */
static void own_questions(size_t count)
{
    const struct command sent_on = {RING_ASK, 0, identifier(2, 1)}, answered = {RING_ASK, 0, identifier(2, 0)}, leave = {RING_LEAVE, 0, 0};
    struct ring r;
    settled(&r, 2, count);
    put(r.words, 2, 256);
    put(r.words, 3, 1);
    for (size_t j = 0; j < 256; j++) {
        const uint32_t message[6] = {LOOKUP, 0, 1, 7, 0, 0};
        for (size_t k = 0; k < 6; k++) put(r.words, 452 + 6 * j + k, message[k]);
    }
    step_refused(&r, sent_on, RING_MESSAGES_FULL, "a question that must be sent on: 11");
    step_refused(&r, leave, RING_MESSAGES_FULL, "a leave: 11");
    expect(step_cards(&r, answered) == RING_FOUND, "a question that is answered at once");
    put(r.words, 3, 4294967295u);
    step_refused(&r, answered, RING_TICKETS_USED_UP, "no ticket left: 12");
    step_refused(&r, sent_on, RING_TICKETS_USED_UP, "12 before 11");
    put(r.words, 6, 1);
    step_refused(&r, leave, RING_LOCKED, "a locked hub leaves: 7, before 11");
}

/*
 * A record by hand, with a message of this kind from hub 1 to hub 0. LEAVEPOINT: hub 0 is locked, and hub 1 before it is leaving. JOIN: hub 0 is
 * alone, and hub 1 is joining. The cards have the hubs of these bits as members.
 */
static void by_hand(struct ring *r, uint32_t kind, uint32_t marked, size_t count)
{
    static const uint32_t hubs[2] = {100, 3000000000u};
    uint32_t leaving = kind == LEAVEPOINT, link = leaving ? 0 : NONE, message[6] = {kind, 1, 0, leaving ? 0 : 1, 0, 0};
    const uint32_t inside[7] = {hubs[0], RING_INSIDE, leaving, 0, leaving, leaving, NONE};
    const uint32_t other[7] = {hubs[1], leaving ? RING_LEAVING : RING_JOINING, 1, 0, link, link, NONE};
    found(r, hubs, 2, 0);
    put_row(r, 0, inside);
    put_row(r, 1, other);
    put(r->words, 2, 1);
    for (size_t k = 0; k < 6; k++) put(r->words, 452 + k, message[k]);
    put(r->cards, MARKS, marked & 1);
    put(r->cards, MARKS + 1, marked >> 1);
    put_cards(r, count);
}

/* Gone of the only member: 2, asked last, and nothing has changed. Of a member beside another, or of a hub that is none, it is accepted. */
static void last_question(size_t count)
{
    static const struct command delivery = {RING_DELIVER, 1, 0};
    struct ring r, before;
    by_hand(&r, LEAVEPOINT, 2, count);
    step_refused(&r, delivery, RING_NOT_WELL_FORMED, "gone of the only member: 2");
    step_refused(&r, (struct command){RING_DELIVER, 0, 1}, RING_NO_MESSAGE, "9 is asked before it");
    put(r.words, 6, 0);
    step_refused(&r, delivery, RING_NOT_EXPECTED, "10 is asked before it");
    by_hand(&r, LEAVEPOINT, 3, count);
    expect(step_cards(&r, delivery) == RING_GONE && kept_by(&r, 0) == count, "gone of one of two: the other keeps all cards");
    by_hand(&r, LEAVEPOINT, 1, count);
    before = r;
    expect(step_cards(&r, delivery) == RING_GONE, "gone of a hub that is no member");
    expect(memcmp(r.cards, before.cards, sizeof r.cards) == 0, "it had no card");
}

/* Entered of a hub that is a member already, alone or beside another: the cards stay. */
static void entered_again(uint32_t marked, size_t count)
{
    struct ring r, before;
    by_hand(&r, JOIN, marked, count);
    before = r;
    expect(step_cards(&r, (struct command){RING_DELIVER, 1, 0}) == RING_ENTERED, "entered of a member");
    expect(memcmp(r.cards, before.cards, sizeof r.cards) == 0, "it had its cards already");
}

void card_moves(void)
{
    static const uint32_t some[] = {1, 3, 64}, leavers[] = {0, 1, 63};
    static const size_t counts[] = {0, 1, 512};
    for (size_t k = 0; k < 3; k++) {
        beside_each_hub(some[k]);
        whatever_the_rows_say(some[k]);
        as_many_as_there_are_places(some[k]);
        swap(2, counts[k], 1);
        swap(5, counts[k], 0);
        swap(64, 512, leavers[k]);
        own_questions(counts[k]);
        last_question(counts[k]);
        entered_again(2, counts[k]);
        entered_again(3, counts[k]);
    }
}
