/* The calls that found a ring, made in several ways and held to what the documents say of them. See calls.h. */
#include <stdlib.h>
#include <string.h>

#include "made.h"

/* Both forms, as one of those that are compared has them. */
struct forms {
    uint32_t (*fresh)(uint8_t *, size_t, const uint8_t *, size_t);
    uint32_t (*fresh_by)(uint8_t *, size_t, const uint8_t *, size_t, uint32_t);
};

static const struct forms shipped = {ring_fresh, ring_fresh_by};
static const struct forms traced = {traced_fresh, traced_fresh_by};
static const struct forms model = {model_fresh, model_fresh_by};

static struct made by_fresh(const struct forms *call, const struct ring *ring, const struct founding *f, size_t guard)
{
    struct made m = before(ring, 0, guard);
    struct buffer ids = lend(f->identifiers, f->len, guard);
    m.code = f->named ? call->fresh_by(m.words.bytes, m.words.len, ids.bytes, ids.len, f->founder)
                      : call->fresh(m.words.bytes, m.words.len, ids.bytes, ids.len);
    after(&m);
    must(guards_stand(&ids), "a byte beside the identifiers was written");
    must(f->len == 0 || memcmp(ids.bytes, f->identifiers, f->len) == 0, "the identifiers were written");
    free(ids.all);
    return m;
}

/* The place of the smallest identifier, counted here once more. */
static uint32_t smallest(const struct founding *f)
{
    uint32_t place = 0;
    for (uint32_t i = 1; i < f->len / 4; i++)
        if (ring_word(f->identifiers, i) < ring_word(f->identifiers, place)) place = i;
    return place;
}

/* A ring just founded: one hub is in it and points at itself, the founder; nothing was asked, nothing waits. */
static void must_be_founded(const uint8_t *words, const struct founding *f)
{
    uint32_t n = (uint32_t)(f->len / 4), founder = f->named ? f->founder : smallest(f);
    must(ring_word(words, 1) == n && ring_word(words, 2) == 0 && ring_word(words, 3) == 0, "fresh: hubs, messages or questions that were not given");
    for (uint32_t hub = 0; hub < n; hub++) {
        const uint8_t *row = words + 4 * (4 + 7 * (size_t)hub);
        must(ring_word(row, 0) == ring_word(f->identifiers, hub), "fresh: another identifier than the one given");
        must(ring_word(row, 1) == (hub == founder ? RING_INSIDE : RING_OUTSIDE), "fresh: not the founder, or not it alone, is inside");
        must(hub != founder || (ring_word(row, 4) == hub && ring_word(row, 5) == hub), "fresh: a founder that is not its own pred and succ");
    }
}

/* The number is one that this form has, and the founder is asked last. */
static void must_be_return(const struct founding *f, uint32_t code)
{
    int known = code == RING_OK || code == RING_RECORD_SHORT || code == RING_IDENTIFIER_COUNT || code == RING_IDENTIFIER_TWICE;
    must(known || (f->named && code == RING_NO_FOUNDER), "fresh: a return that the documents do not have");
    must(code != RING_OK || !f->named || f->founder < f->len / 4, "fresh: founded by a hub that is none");
    must(code != RING_NO_FOUNDER || f->founder >= f->len / 4, "fresh: 18, although the founder is a hub");
}

uint32_t checked_fresh(struct ring *ring, const struct founding *f)
{
    struct made by_traced = by_fresh(&traced, ring, f, 0), by_model = by_fresh(&model, ring, f, GUARD);
    struct made first = by_fresh(&shipped, ring, f, GUARD), again = by_fresh(&shipped, ring, f, GUARD);
    uint32_t code = first.code;
    must_agree(&first, &again, "fresh: the same call twice, with two results");
    must_agree(&first, &by_traced, "fresh: the archive and the traced engine differ");
    must_agree(&first, &by_model, "fresh: engine and model differ");
    must_be_return(f, code);
    count_return(f->named ? FRESH_BY : FRESH, code);
    if (code == RING_OK) {
        must_be_well_formed(ring, &first);
        must_be_founded(first.words.bytes, f);
        memcpy(ring->bytes, first.words.bytes, ring->len);
    } else {
        must_leave_all(ring, &first);
    }
    done(&first);
    return code;
}
