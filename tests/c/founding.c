/*
 * The calls that found a ring, ring_fresh and ring_fresh_by (document 02, 2026-02). Each test takes the form that it founds by, so that both
 * are asked the same: every length, every refusal and their order, who founds, and what the ring does then. What a founding has to write is
 * put together here, word for word.
 */
#include "buffers.h"

/* How a ring is founded: no founder is named, or this one. */
struct form {
    int named;
    uint32_t founder;
};

static const struct form smallest = {0, 0};

static struct form by(uint32_t founder)
{
    struct form form = {1, founder};
    return form;
}

/* Forms for the tests in which it matters little who founds; of two hubs or 64, the last two founders are none. */
static const struct form forms[] = {{0, 0}, {1, 0}, {1, 1}, {1, 64}, {1, 4294967295u}};

/* Identifiers as they are lent, with room for one too many and for three bytes left over. */
struct list {
    uint8_t bytes[4 * (RING_MOST_HUBS + 1) + 3];
    size_t len;
};

static struct list of(const uint32_t *numbers, size_t n)
{
    struct list list = {{0}, 4 * n};
    for (size_t i = 0; i < n; i++) put(list.bytes, i, numbers[i]);
    return list;
}

/* n identifiers that fall from hub to hub, from the highest number on: the last hub's is the smallest. One more than the most is there. */
static struct list falling(size_t n)
{
    struct list list = {{0}, 4 * n};
    for (size_t i = 0; i <= RING_MOST_HUBS; i++) put(list.bytes, i, 4294967295u - 65000000u * (uint32_t)i);
    return list;
}

/* The record of a ring that this hub has just founded. */
static void founded(uint8_t *record, const struct list *list, uint32_t founder)
{
    uint32_t n = (uint32_t)(list->len / 4);
    memset(record, 0, RING_RECORD_BYTES);
    put(record, 0, 1);
    put(record, 1, n);
    for (uint32_t hub = 0; hub < n; hub++) {
        uint32_t state = hub == founder ? RING_INSIDE : RING_OUTSIDE, link = hub == founder ? founder : NONE;
        uint32_t row[7] = {ring_word(list->bytes, hub), state, 0, 0, link, link, NONE};
        for (size_t k = 0; k < 7; k++) put(record, 4 + 7 * (size_t)hub + k, row[k]);
    }
}

/* The call itself; the identifiers are lent as a buffer of their own. */
static uint32_t found(struct buffer *b, const struct list *list, struct form form)
{
    struct buffer ids = lend(list->bytes, list->len, list->len);
    uint32_t code = form.named ? ring_fresh_by(b->bytes, b->len, ids.bytes, ids.len, form.founder)
                               : ring_fresh(b->bytes, b->len, ids.bytes, ids.len);
    expect(unchanged(&ids, list->bytes, list->len), "fresh: the identifiers stay");
    free(ids.all);
    return code;
}

/* A founding that is accepted, on a record of this length: the founder is inside, alone and by itself, and nothing behind the record moves. */
static void accepts(const struct list *list, size_t len, struct form form, uint32_t founder)
{
    static uint8_t record[RING_RECORD_BYTES];
    struct buffer b = lend(NULL, 0, len);
    founded(record, list, founder);
    expect(found(&b, list, form) == RING_OK, "fresh: accepted");
    expect(memcmp(b.bytes, record, sizeof record) == 0, "fresh: the founder inside, its own pred and succ; the others outside");
    expect(untouched(&b, RING_RECORD_BYTES), "fresh: bytes behind the record");
    free(b.all);
}

/* A founding that is refused by this number; the record is as it was. */
static void refuses(const struct list *list, size_t len, struct form form, uint32_t code, const char *what)
{
    struct buffer b = lend(NULL, 0, len);
    expect(found(&b, list, form) == code, what);
    expect(untouched(&b, 0), "a refused fresh call writes nothing");
    free(b.all);
}

static void at_each_length(struct form form)
{
    struct list list = falling(2);
    for (size_t k = 0; k < LENGTHS; k++) {
        if (lengths[k] < RING_RECORD_BYTES) refuses(&list, lengths[k], form, RING_RECORD_SHORT, "fresh: 1 below 7952 bytes");
        else if (form.named && form.founder >= 2) refuses(&list, lengths[k], form, RING_NO_FOUNDER, "fresh: 18 at every length");
        else accepts(&list, lengths[k], form, form.named ? form.founder : 1);
    }
}

/* 13 for lists that are too short or too long, 14 for an identifier twice; both are asked before the founder, and 1 before them. */
static void by_identifiers(struct form form)
{
    static const size_t counts[] = {0, 1, 2, 3, 4 * 65, 4 * 65 + 1, 4 * 65 + 3};
    struct list list = falling(0);
    for (size_t k = 0; k < COUNT(counts); k++) {
        list.len = counts[k];
        refuses(&list, RING_RECORD_BYTES, form, RING_IDENTIFIER_COUNT, "not 1 to 64 identifiers: 13");
        refuses(&list, RING_RECORD_BYTES - 1, form, RING_RECORD_SHORT, "1 is asked before 13");
    }
    memcpy(list.bytes + 4, list.bytes, 4);
    refuses(&list, RING_RECORD_BYTES, form, RING_IDENTIFIER_COUNT, "13 is asked before 14");
    for (size_t n = 2; n <= RING_MOST_HUBS; n += 62) {
        list.len = 4 * n + 3;
        refuses(&list, RING_RECORD_BYTES, form, RING_IDENTIFIER_TWICE, "the same twice: 14");
        refuses(&list, RING_RECORD_BYTES - 1, form, RING_RECORD_SHORT, "1 is asked before 14");
    }
}

/* The smallest identifier twice: the last hub's, and that of each other hub in turn, the founder too. */
static void twice_at_each_place(struct form form)
{
    for (size_t other = 0; other < RING_MOST_HUBS - 1; other++) {
        struct list list = falling(RING_MOST_HUBS);
        memcpy(list.bytes + 4 * other, list.bytes + 4 * (RING_MOST_HUBS - 1), 4);
        refuses(&list, RING_RECORD_BYTES, form, RING_IDENTIFIER_TWICE, "the smallest twice: 14");
    }
}

/* Of n hubs each one founds where it is named, and no other number does. */
static void by_each_founder(size_t n)
{
    const uint32_t none[] = {(uint32_t)n, (uint32_t)n + 1, 65, 254, 255, 256, 65536, 2147483648u, 4294967040u, 4294967295u};
    struct list list = falling(n);
    for (uint32_t founder = 0; founder < n; founder++) accepts(&list, RING_RECORD_BYTES, by(founder), founder);
    for (size_t k = 0; k < COUNT(none); k++) {
        refuses(&list, RING_RECORD_BYTES, by(none[k]), RING_NO_FOUNDER, "a founder that is no hub: 18");
        refuses(&list, RING_RECORD_BYTES - 1, by(none[k]), RING_RECORD_SHORT, "1 is asked before 18");
    }
    list.len += 3;
    accepts(&list, RING_RECORD_BYTES, smallest, (uint32_t)n - 1);
    accepts(&list, RING_RECORD_BYTES, by((uint32_t)n - 1), (uint32_t)n - 1);
    refuses(&list, RING_RECORD_BYTES, by((uint32_t)n), RING_NO_FOUNDER, "bytes left over are no hub: 18");
}

/* The smallest identifier of the list is this hub's: ring_fresh founds as ring_fresh_by does by it, byte for byte. */
static void smallest_is(const struct list *list, uint32_t hub)
{
    struct buffer one = lend(NULL, 0, RING_RECORD_BYTES + 3), other = lend(NULL, 0, RING_RECORD_BYTES + 3);
    accepts(list, RING_RECORD_BYTES, smallest, hub);
    accepts(list, RING_RECORD_BYTES, by(hub), hub);
    expect(found(&one, list, smallest) == RING_OK && found(&other, list, by(hub)) == RING_OK, "fresh: both forms");
    expect(memcmp(one.bytes, other.bytes, one.len) == 0, "fresh: the same record by both forms");
    free(one.all);
    free(other.all);
}

/* Short lists: the ends of the circle, numbers that signs or bytes read backwards would put in another order, and the smallest by one. */
static void smallest_of_few(void)
{
    static const uint32_t ones[] = {0, 1, 2147483648u, 4294967295u};
    static const uint32_t pairs[][2] = {{0, 4294967295u}, {0, 1}, {4294967294u, 4294967295u}, {2147483647u, 2147483648u},
                                        {2, 16777217u}, {255, 256}, {65535, 4294901760u}};
    for (size_t k = 0; k < COUNT(ones); k++) {
        struct list list = of(&ones[k], 1);
        smallest_is(&list, 0);
    }
    for (size_t k = 0; k < COUNT(pairs); k++) {
        uint32_t turned[2] = {pairs[k][1], pairs[k][0]};
        struct list up = of(pairs[k], 2), down = of(turned, 2);
        smallest_is(&up, 0);
        smallest_is(&down, 1);
    }
}

/* 64 hubs, the highest number of all among them, and the smallest at this place: below the next one by 1, or 0. */
static void smallest_of_many(uint32_t place)
{
    struct list list = falling(RING_MOST_HUBS);
    if (place == 0) memcpy(list.bytes + 4, list.bytes, 4);
    put(list.bytes, place, ring_word(list.bytes, RING_MOST_HUBS - 1) - 1);
    smallest_is(&list, place);
    put(list.bytes, place, 0);
    smallest_is(&list, place);
}

/* One step, and whether it returns this. */
static int steps(struct buffer *b, struct buffer *out, uint32_t operation, uint32_t x, uint32_t y, uint32_t code)
{
    return ring_step(b->bytes, b->len, operation, x, y, out->bytes, out->len) == code;
}

/* The founder answers for every number; the other hub answers for none. */
static void answers_alone(struct buffer *b, struct buffer *out, uint32_t founder)
{
    static const uint32_t numbers[] = {0, 100, 101, 150, 200, 201, 4294967295u};
    for (size_t k = 0; k < COUNT(numbers); k++) {
        expect(steps(b, out, RING_ASK, founder, numbers[k], RING_OK), "ask at the founder");
        expect(ring_word(out->bytes, 0) == RING_FOUND && ring_word(out->bytes, 1) == founder, "found by the founder");
        expect(steps(b, out, RING_ASK, 1 - founder, numbers[k], RING_NOT_IN_RING), "ask at the other hub: 5");
        expect(ring_owner(b->bytes, b->len, numbers[k], out->bytes, out->len) == RING_OK, "owner: some hub");
        expect(ring_word(out->bytes, 0) == founder, "owner: the founder");
    }
}

/* The ring of hub 0 (200) and hub 1 (100): the founder is alone in it, and the other hub joins through it and through nobody else. */
static void lives(struct form form, uint32_t founder)
{
    static const uint32_t pair[2] = {200, 100};
    struct buffer b = lend(NULL, 0, RING_RECORD_BYTES), out = lend(NULL, 0, RING_ANSWER_BYTES);
    struct list list = of(pair, 2);
    uint32_t other = 1 - founder;
    expect(found(&b, &list, form) == RING_OK, "fresh: accepted");
    answers_alone(&b, &out, founder);
    expect(steps(&b, &out, RING_LEAVE, founder, 0, RING_LAST_HUB), "the founder leaves: 8");
    expect(steps(&b, &out, RING_LEAVE, other, 0, RING_NOT_IN_RING), "the other hub leaves: 5");
    expect(steps(&b, &out, RING_JOIN, founder, other, RING_NOT_OUTSIDE), "the founder joins: 6");
    expect(steps(&b, &out, RING_JOIN, other, other, RING_NOT_IN_RING), "joining through oneself: 5");
    expect(steps(&b, &out, RING_JOIN, other, founder, RING_OK), "the other hub joins");
    expect(steps(&b, &out, RING_DELIVER, other, founder, RING_OK), "its JOIN is delivered");
    expect(ring_word(out.bytes, 0) == RING_ENTERED && ring_word(out.bytes, 1) == other, "the other hub enters");
    free(b.all);
    free(out.all);
}

void foundings(void)
{
    static const size_t hubs[] = {1, 2, 3, 63, 64};
    static const uint32_t places[] = {0, 1, 31, 32, 62, 63};
    for (size_t k = 0; k < COUNT(forms); k++) {
        at_each_length(forms[k]);
        by_identifiers(forms[k]);
        twice_at_each_place(forms[k]);
    }
    for (size_t k = 0; k < COUNT(hubs); k++) by_each_founder(hubs[k]);
    smallest_of_few();
    for (size_t k = 0; k < COUNT(places); k++) smallest_of_many(places[k]);
    lives(smallest, 1);
    lives(by(1), 1);
    lives(by(0), 0);
}
