/* See routes.h. */
#include <stdlib.h>
#include <string.h>

#include "made.h"
#include "routes.h"

typedef uint32_t route_call(uint8_t *, size_t, uint32_t, const uint8_t *, size_t, uint8_t *, size_t);

static void put_number(struct route *r, size_t i, uint32_t number)
{
    for (size_t k = 0; k < 4; k++) r->numbers[4 * i + k] = (uint8_t)(number >> 8 * k);
}

static void take_numbers(struct input *in, const struct ring *ring, struct route *r, uint32_t way)
{
    uint32_t same = way == 2 ? take_beside(in, ring) : 0, scheme = way == 3 ? take_byte(in) : 0;
    for (uint32_t i = 0; i < r->len / 4; i++) {
        if (way == 0) put_number(r, i, take_word(in));
        else if (way == 1) put_number(r, i, take_beside(in, ring));
        else put_number(r, i, way == 2 ? same : scheme * (i + 1) * 0x9E3779B1u);
    }
}

int take_route(struct input *in, const struct ring *ring, struct route *r)
{
    static const int8_t beside[8] = {0, 0, 0, 1, 23, 100, -1, -24}; /* bytes more than the places need, or less */
    if (in->left == 0 || *in->at < 128) return 0;
    uint32_t form = take_byte(in), hub = take_byte(in), count = take_byte(in) % (RING_MOST_QUESTIONS + 2);
    int outcomes = (int)(RING_PLACE_BYTES * count) + beside[form / 16 % 8];
    r->hub = hub < 192 ? hub % (hubs_of(ring) + 1) : spread(hub); /* with the number of hubs, which is none */
    r->len = 4 * count + form / 4 % 4;
    r->outcomes_len = outcomes < 0 ? 0 : (size_t)outcomes;
    memset(r->numbers, 0x5A, sizeof r->numbers);
    take_numbers(in, ring, r, form % 4);
    return 1;
}

static struct made by_route(route_call *call, const struct ring *ring, const struct route *r, size_t guard)
{
    struct made m = before(ring, r->outcomes_len, guard);
    struct buffer numbers = lend(r->numbers, r->len, guard);
    m.code = call(m.words.bytes, m.words.len, r->hub, numbers.bytes, numbers.len, m.out.bytes, m.out.len);
    after(&m);
    must(guards_stand(&numbers), "a byte beside the numbers was written");
    must(r->len == 0 || memcmp(numbers.bytes, r->numbers, r->len) == 0, "the numbers were written");
    free(numbers.all);
    return m;
}

/* What the call has to return, asked here once more. Operation 4 is refused by 3, but asked after 2. */
static uint32_t has_to_return(const struct ring *ring, const struct route *r)
{
    static uint8_t words[MOST_BYTES];
    uint8_t answer[RING_ANSWER_BYTES];
    size_t count = r->len / 4;
    if (ring->len < RING_RECORD_BYTES) return RING_RECORD_SHORT;
    memcpy(words, ring->bytes, ring->len);
    if (ring_step(words, ring->len, 4, 0, 0, answer, sizeof answer) != RING_NO_OPERATION) return RING_NOT_WELL_FORMED;
    if (count > RING_MOST_QUESTIONS) return RING_ROUTE_LONG;
    return r->outcomes_len / RING_PLACE_BYTES < count ? RING_PLACES_SHORT : RING_OK;
}

/* The questions one by one, each compared with its outcome; the record goes on from them. */
static void must_be_one_by_one(struct ring *ring, const struct route *r, const uint8_t *outcomes)
{
    for (size_t i = 0; i < r->len / 4; i++) {
        uint8_t answer[RING_ANSWER_BYTES] = {0};
        const uint8_t *place = outcomes + RING_PLACE_BYTES * i;
        uint32_t code = ring_step(ring->bytes, ring->len, RING_ASK, r->hub, ring_word(r->numbers, i), answer, sizeof answer);
        must(ring_word(place, 0) == code, "route: an outcome with another refusal than the question alone has");
        must(memcmp(place + 4, answer, sizeof answer) == 0, "route: an outcome with another answer than the question alone has");
        count_return(QUESTION, code);
    }
}

uint32_t checked_route(struct ring *ring, const struct route *r)
{
    struct made traced = by_route(traced_route, ring, r, 0), model = by_route(model_route, ring, r, GUARD);
    struct made first = by_route(ring_route, ring, r, GUARD), again = by_route(ring_route, ring, r, GUARD);
    uint32_t code = first.code;
    must_agree(&first, &again, "route: the same call twice, with two results");
    must_agree(&first, &traced, "route: the archive and the traced engine differ");
    must_agree(&first, &model, "route: engine and model differ");
    must(code == has_to_return(ring, r), "route: another return than its questions have");
    count_return(ROUTE, code);
    if (code == RING_OK) {
        size_t written = RING_PLACE_BYTES * (r->len / 4);
        must_be_well_formed(ring, &first);
        must_be_one_by_one(ring, r, first.out.bytes);
        must(memcmp(first.words.bytes, ring->bytes, ring->len) == 0, "route: another record than after asking one by one");
        must(all_marks(first.out.bytes + written, first.out.len - written), "route: outcomes behind the last place");
    } else {
        must_leave_all(ring, &first);
    }
    done(&first);
    return code;
}
