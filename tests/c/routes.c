/*
 * A route's questions in one call, ring_route (document 02, 2026-06). What it has to write is put together here by asking one by one through
 * ring_step, and where places or tickets run out once more by counting: on every length of its buffers, at hubs in every state, on a ring
 * that is in use. The call's own questions are asked in all combinations.
 */
#include "buffers.h"

/* Numbers of the longest list here: one too many. */
#define MOST_NUMBERS (RING_MOST_QUESTIONS + 1)

/* The hub that is asked, and the numbers. */
struct route {
    uint32_t hub;
    size_t count;
    uint8_t numbers[4 * MOST_NUMBERS];
};

/* How many bytes of each are lent. */
struct room {
    size_t words, numbers, outcomes;
};

/* What a call made of its own copies. */
struct made {
    struct buffer words, numbers, outcomes;
    uint32_t code;
};

/* Numbers all over the circle. */
static struct route spread(uint32_t hub, size_t count)
{
    struct route r = {hub, count, {0}};
    for (size_t i = 0; i < count; i++) put(r.numbers, i, (uint32_t)(i + 7 * hub) * 0x9E3779B1u);
    return r;
}

static struct room exact(const struct route *r)
{
    return (struct room){RING_RECORD_BYTES, 4 * r->count, RING_PLACE_BYTES * r->count};
}

static struct made ask(const uint8_t *record, const struct route *r, struct room room)
{
    struct made m = {lend(record, RING_RECORD_BYTES, room.words), lend(r->numbers, 4 * r->count, room.numbers), lend(NULL, 0, room.outcomes), 0};
    m.code = ring_route(m.words.bytes, m.words.len, r->hub, m.numbers.bytes, m.numbers.len, m.outcomes.bytes, m.outcomes.len);
    expect(unchanged(&m.numbers, r->numbers, 4 * r->count), "route: the numbers stay");
    return m;
}

static void done(struct made *m)
{
    free(m->words.all);
    free(m->numbers.all);
    free(m->outcomes.all);
}

/* The same questions one by one, each on what the one before left, and an outcome put together of what it returned and answered. */
static void one_by_one(uint8_t *record, const struct route *r, uint8_t *outcomes)
{
    for (size_t i = 0; i < r->count; i++) {
        uint8_t answer[RING_ANSWER_BYTES] = {0}, *place = outcomes + RING_PLACE_BYTES * i;
        put(place, 0, ring_step(record, RING_RECORD_BYTES, RING_ASK, r->hub, ring_word(r->numbers, i), answer, sizeof answer));
        memcpy(place + 4, answer, sizeof answer);
    }
}

/* The call is accepted: record and outcomes are those of asking one by one, and nothing else is written. The record goes on from there. */
static void accepts(uint8_t *record, const struct route *r, struct room room, uint8_t *outcomes)
{
    struct made m = ask(record, r, room);
    one_by_one(record, r, outcomes);
    expect(m.code == RING_OK, "route: accepted");
    expect(unchanged(&m.words, record, RING_RECORD_BYTES), "route: the record of asking one by one, and nothing behind it");
    expect(unchanged(&m.outcomes, outcomes, RING_PLACE_BYTES * r->count), "route: the outcomes of asking one by one, and nothing behind them");
    done(&m);
}

/* On a copy the call is accepted, or refused by this number, and then it has written nothing. */
static void asks(const uint8_t *record, const struct route *r, struct room room, uint32_t code, const char *what)
{
    static uint8_t copy[RING_RECORD_BYTES], outcomes[RING_PLACE_BYTES * RING_MOST_QUESTIONS];
    if (code == RING_OK) {
        memcpy(copy, record, sizeof copy);
        accepts(copy, r, room, outcomes);
        return;
    }
    struct made m = ask(record, r, room);
    expect(m.code == code, what);
    expect(unchanged(&m.words, record, RING_RECORD_BYTES), "a refused route leaves the record");
    expect(untouched(&m.outcomes, 0), "a refused route leaves the outcomes");
    done(&m);
}

/* Every length of the numbers, and some that are far too long: bytes that are no whole number do not count. */
static void numbers_of_each_length(const uint8_t *record)
{
    static const size_t longer[] = {128, 256, 320, 65536, 65600};
    for (size_t len = 0; len <= 4 * MOST_NUMBERS + 3; len++) {
        struct route r = spread(0, len / 4);
        struct room room = exact(&r);
        room.numbers = len;
        asks(record, &r, room, r.count > RING_MOST_QUESTIONS ? RING_ROUTE_LONG : RING_OK, "route: 25 from 65 numbers on");
    }
    for (size_t k = 0; k < COUNT(longer); k++) {
        struct route r = spread(0, MOST_NUMBERS);
        struct room room = {RING_RECORD_BYTES, 4 * longer[k], RING_PLACE_BYTES * longer[k]};
        asks(record, &r, room, RING_ROUTE_LONG, "route: 25 for lists that are far too long");
    }
}

/* Record and outcomes around the lengths that matter: bytes that are no whole place do not count. */
static void at_each_length(const uint8_t *record, size_t count)
{
    struct route r = spread(1, count);
    struct room room = exact(&r);
    size_t least = room.outcomes;
    for (size_t k = 0; k < LENGTHS; k++) {
        room.words = lengths[k];
        asks(record, &r, room, room.words < RING_RECORD_BYTES ? RING_RECORD_SHORT : RING_OK, "route: 1 below 7952 bytes");
    }
    room.words = RING_RECORD_BYTES + 3;
    for (room.outcomes = least < 25 ? 0 : least - 25; room.outcomes <= least + 25; room.outcomes++)
        asks(record, &r, room, room.outcomes < least ? RING_PLACES_SHORT : RING_OK, "route: 26 with a byte less than are needed");
    room.outcomes = 0;
    asks(record, &r, room, count == 0 ? RING_OK : RING_PLACES_SHORT, "route: 26 with no place");
}

/* Each of the call's questions, alone and with the others: the first that is answered no is told. */
static void questions_in_order(const uint8_t *record, const uint8_t *damaged, uint32_t hub)
{
    for (unsigned no = 1; no < 16; no++) {
        struct route r = spread(hub, no & 4 ? 65 : 64);
        struct room room = exact(&r);
        if (no & 1) room.words--;
        if (no & 8) room.outcomes = RING_PLACE_BYTES * 64 - 1; /* too few, be it 64 numbers or 65 */
        uint32_t code = no & 1 ? RING_RECORD_SHORT : no & 2 ? RING_NOT_WELL_FORMED : no & 4 ? RING_ROUTE_LONG : RING_PLACES_SHORT;
        asks(no & 2 ? damaged : record, &r, room, code, "route: 1, 2, 25, 26, in this order");
    }
    struct route none = spread(hub, 0);
    struct room room = exact(&none);
    asks(record, &none, room, RING_OK, "route: no number, and no place");
    asks(damaged, &none, room, RING_NOT_WELL_FORMED, "route: 2 with no number too");
    room.words--;
    asks(record, &none, room, RING_RECORD_SHORT, "route: 1 with no number too");
}

/* The same at any hub and at none, with the first word wrong, or the last of the rows. */
static void questions(const uint8_t *record)
{
    static const uint32_t hubs[] = {0, 1, 2, 3, 255, 4294967295u};
    static const size_t words[] = {0, 451};
    static uint8_t damaged[RING_RECORD_BYTES];
    for (size_t k = 0; k < COUNT(hubs) * COUNT(words); k++) {
        memcpy(damaged, record, sizeof damaged);
        put(damaged, words[k % COUNT(words)], 2);
        questions_in_order(record, damaged, hubs[k / COUNT(words)]);
    }
    struct route one = spread(0, 1);
    memcpy(damaged, record, sizeof damaged);
    damaged[RING_RECORD_BYTES - 1] = 1;
    asks(damaged, &one, exact(&one), RING_NOT_WELL_FORMED, "route: a last byte that is not 0: 2");
}

/* Hubs in every state, and none: a hub that cannot be asked is no refusal of the call but the outcome of each question. */
static void at_each_hub(void)
{
    static const uint32_t rows[7][7] = {
        {10, RING_OUTSIDE, 0, 0, NONE, NONE, NONE}, {20, RING_JOINING, 1, 0, NONE, NONE, NONE}, {30, RING_INSIDE, 0, 0, 6, 3, NONE},
        {40, RING_INSIDE, 1, 0, 2, 4, NONE},        {50, RING_INSIDE, 1, 1, 3, 5, 2},           {60, RING_WANTING_TO_LEAVE, 1, 0, 4, 6, NONE},
        {70, RING_LEAVING, 1, 0, 5, 2, NONE}};
    static const uint32_t hubs[] = {0, 1, 2, 3, 4, 5, 6, 7, 8, 63, 64, 255, 256, 4294967295u};
    static uint8_t record[RING_RECORD_BYTES], outcomes[RING_PLACE_BYTES * 21];
    put_rows(record, rows, 7);
    for (size_t k = 0; k < COUNT(hubs); k++) {
        uint32_t hub = hubs[k], code = hub > 6 ? RING_NO_HUB : hub < 2 ? RING_NOT_IN_RING : RING_OK, asked = ring_word(record, 3);
        struct route r = spread(hub, 21);
        for (uint32_t i = 0; i < 21; i++) put(r.numbers, i, rows[i / 3][0] + i % 3 - 1); /* each identifier, and beside it */
        accepts(record, &r, exact(&r), outcomes);
        for (size_t i = 0; i < 21; i++) expect(ring_word(outcomes, 6 * i) == code, "route: 4 or 5 in each outcome");
        expect(ring_word(record, 3) == asked + (code == RING_OK ? 21 : 0), "route: a ticket for each question that is accepted");
        expect(hub != 6 || ring_word(outcomes, 6 * 19 + 1) == RING_QUIET, "route: a leaving hub sends its own number on");
        expect(hub != 5 || ring_word(outcomes, 6 * 16 + 1) == RING_FOUND, "route: a hub that wants to leave answers");
    }
}

/* What comes of a route at hub 0 (100) of two, which sends on what is not its own: counted by the places and the tickets that are left. */
static void counted(const uint8_t *record, const struct route *r, uint8_t *outcomes)
{
    uint32_t waiting = ring_word(record, 2), asked = ring_word(record, 3);
    for (size_t i = 0; i < r->count; i++) {
        uint32_t number = ring_word(r->numbers, i), own = number == 100;
        uint32_t code = asked == 4294967295u ? RING_TICKETS_USED_UP : !own && waiting == 256 ? RING_MESSAGES_FULL : RING_OK;
        int found = code == RING_OK && own;
        uint32_t place[6] = {code, found ? RING_FOUND : RING_QUIET, 0, found ? number : 0, found ? asked : 0, 0};
        for (size_t k = 0; k < 6; k++) put(outcomes, 6 * i + k, place[k]);
        if (code == RING_OK) asked++, waiting += !own;
    }
}

/* Places and tickets that run out in the middle: what the hub holds itself is still found, and behind the last ticket nothing is. */
static void running_out(const uint8_t *two)
{
    static const uint32_t waiting[] = {0, 192, 193, 250, 255, 256}, asked[] = {256, 4294967231u, 4294967232u, 4294967293u, 4294967295u};
    static const uint64_t own[] = {0, UINT64_MAX, 0xAAAAAAAAAAAAAAAAu, 0x0123456789ABCDEFu}; /* a bit for each number */
    static uint8_t record[RING_RECORD_BYTES], outcomes[RING_PLACE_BYTES * 64], expected[RING_PLACE_BYTES * 64];
    for (size_t k = 0; k < COUNT(waiting) * COUNT(asked) * COUNT(own); k++) {
        struct route r = spread(0, 64);
        for (size_t i = 0; i < 64; i++) put(r.numbers, i, own[k % COUNT(own)] >> i & 1 ? 100 : 200);
        memcpy(record, two, sizeof record);
        put(record, 2, waiting[k / COUNT(own) % COUNT(waiting)]);
        put(record, 3, asked[k / COUNT(own) / COUNT(waiting)]);
        for (uint32_t m = 0; m < 6 * ring_word(record, 2); m++) put(record, 452 + m, (const uint32_t[]){1, 0, 1, 200, m / 6, 0}[m % 6]);
        counted(record, &r, expected);
        accepts(record, &r, exact(&r), outcomes);
        expect(memcmp(outcomes, expected, sizeof expected) == 0, "route: 11 and 12 from where places and tickets run out");
    }
}

/* 64 hubs, asked in turn, each for 64 numbers, while the oldest messages are delivered: now and then no place is left. */
static void in_use(void)
{
    static uint8_t record[RING_RECORD_BYTES], outcomes[RING_PLACE_BYTES * 64], answer[RING_ANSWER_BYTES];
    unsigned refused = 0;
    put_circle(record, 64);
    for (uint32_t hub = 0; hub < 64; hub++) {
        struct route r = spread(hub, 64);
        accepts(record, &r, exact(&r), outcomes);
        for (size_t i = 0; i < 64; i++) refused += ring_word(outcomes, 6 * i) == RING_MESSAGES_FULL;
        for (uint32_t k = 0; k < 40 && ring_word(record, 2) != 0; k++) {
            uint32_t from = ring_word(record, 453), to = ring_word(record, 454);
            expect(ring_step(record, sizeof record, RING_DELIVER, from, to, answer, sizeof answer) == RING_OK, "route: messages go on between");
        }
    }
    expect(refused > 64 && refused < 63 * 64, "route: some are refused by 11, and some are not");
}

void routes(void)
{
    static const uint32_t rows[3][7] = {{100, RING_INSIDE, 0, 0, 1, 1, NONE}, {200, RING_INSIDE, 0, 0, 0, 0, NONE},
                                        {300, RING_OUTSIDE, 0, 0, NONE, NONE, NONE}};
    static const size_t counts[] = {0, 1, 2, 63, 64};
    static uint8_t two[RING_RECORD_BYTES];
    put_rows(two, rows, 3);
    numbers_of_each_length(two);
    for (size_t k = 0; k < COUNT(counts); k++) at_each_length(two, counts[k]);
    questions(two);
    at_each_hub();
    running_out(two);
    in_use();
}
