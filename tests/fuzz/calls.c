/* Each call on a ring, made in several ways and held to what document 01 says of it. See calls.h. */
#include <string.h>

#include "made.h"

typedef uint32_t step_call(uint8_t *, size_t, uint32_t, uint32_t, uint32_t, uint8_t *, size_t);
typedef uint32_t owner_call(const uint8_t *, size_t, uint32_t, uint8_t *, size_t);

static struct made by_step(step_call *call, const struct ring *ring, struct command c, size_t guard)
{
    struct made m = before(ring, ring->out_len, guard);
    m.code = call(m.words.bytes, m.words.len, c.operation, c.x, c.y, m.out.bytes, m.out.len);
    after(&m);
    return m;
}

static struct made by_owner(owner_call *call, const struct ring *ring, uint32_t number, size_t guard)
{
    struct made m = before(ring, ring->out_len, guard);
    m.code = call(m.words.bytes, m.words.len, number, m.out.bytes, m.out.len);
    after(&m);
    return m;
}

/* The answer's five words: a kind, a hub of the ring, and 0 in each word that the kind does not have. */
static void must_be_answer(const uint8_t *words, const uint8_t *out)
{
    uint32_t kind = ring_word(out, 0), hub = ring_word(out, 1), n = ring_word(words, 1);
    must(kind <= RING_LEFT, "an answer of no kind");
    must(kind == RING_QUIET ? hub == 0 : hub < n, "an answer with a hub out of range");
    if (kind == RING_FOUND) {
        uint32_t state = ring_word(words, 4 + 7 * hub + 1);
        must(ring_word(out, 3) < ring_word(words, 3), "found: a ticket that was not given");
        must(ring_word(out, 4) <= 65535, "found: hops out of range");
        must(state == 2 || state == 3, "found: at a hub that does not answer");
        return;
    }
    must(ring_word(out, 2) == 0 && ring_word(out, 3) == 0 && ring_word(out, 4) == 0, "an answer with a field that it does not have");
}

uint32_t checked_step(struct ring *ring, struct command c)
{
    struct made traced = by_step(traced_step, ring, c, 0), model = by_step(model_step, ring, c, GUARD);
    struct made first = by_step(ring_step, ring, c, GUARD), again = by_step(ring_step, ring, c, GUARD);
    uint32_t code = first.code;
    count_call();
    must_agree(&first, &again, "step: the same call twice, with two results");
    must_agree(&first, &traced, "step: the archive and the traced engine differ");
    must_agree(&first, &model, "step: engine and model differ");
    must(code <= RING_TICKETS_USED_UP || code == RING_OUTPUT_SHORT, "step: a return that document 01 does not have");
    if (code == RING_OK) {
        must_be_answer(first.words.bytes, first.out.bytes);
        must(all_marks(first.out.bytes + RING_ANSWER_BYTES, first.out.len - RING_ANSWER_BYTES), "step: output behind the answer");
        must_be_well_formed(ring, &first);
        memcpy(ring->bytes, first.words.bytes, ring->len);
    } else {
        must_leave_all(ring, &first);
    }
    done(&first);
    return code;
}

/* The lowest hub in state 2 or 3 with the number in (pred, its identifier], counted here once more; n where there is none. */
static uint32_t holder(const uint8_t *words, uint32_t number)
{
    uint32_t n = ring_word(words, 1), hub = 0;
    for (; hub < n; hub++) {
        size_t row = 4 + 7 * (size_t)hub;
        uint32_t state = ring_word(words, row + 1);
        if (state != 2 && state != 3) continue;
        uint32_t pred = ring_word(words, 4 + 7 * (size_t)ring_word(words, row + 4)), own = ring_word(words, row);
        if (pred == own || number - pred - 1 < own - pred) break;
    }
    return hub;
}

uint32_t checked_owner(const struct ring *ring, uint32_t number)
{
    struct made traced = by_owner(traced_owner, ring, number, 0), model = by_owner(model_owner, ring, number, GUARD);
    struct made first = by_owner(ring_owner, ring, number, GUARD), again = by_owner(ring_owner, ring, number, GUARD);
    uint32_t code = first.code;
    count_call();
    must_agree(&first, &again, "owner: the same call twice, with two results");
    must_agree(&first, &traced, "owner: the archive and the traced engine differ");
    must_agree(&first, &model, "owner: engine and model differ");
    if (code == RING_OK) {
        uint32_t hub = ring_word(first.out.bytes, 0);
        must(memcmp(first.words.bytes, ring->bytes, ring->len) == 0, "owner: the record was written");
        must(hub < ring_word(ring->bytes, 1) && hub == holder(ring->bytes, number), "owner: a hub that does not hold the number, or not the lowest");
        must(all_marks(first.out.bytes + RING_OWNER_BYTES, first.out.len - RING_OWNER_BYTES), "owner: output behind the hub");
    } else {
        must(code == RING_OUTPUT_SHORT || code == RING_RECORD_SHORT || code == RING_NOT_WELL_FORMED || code == RING_NO_HOLDER,
             "owner: a return that document 01 does not have");
        must(code != RING_NO_HOLDER || holder(ring->bytes, number) == ring_word(ring->bytes, 1), "owner: 15, although a hub holds the number");
        must_leave_all(ring, &first);
    }
    done(&first);
    return code;
}
