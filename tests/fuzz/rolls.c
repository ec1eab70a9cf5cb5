/* See rolls.h. */
#include <stdlib.h>
#include <string.h>

#include "made.h"
#include "rolls.h"

typedef uint32_t roll_call(const uint8_t *, size_t, uint32_t, uint8_t *, size_t, uint8_t *, size_t);

static uint32_t field(const struct ring *ring, uint32_t hub, size_t word)
{
    return ring_word(ring->bytes, 4 + 7 * (size_t)hub + word);
}

/* The hubs from one on along succ; answers how many they are, 0 where the way does not come back within n. */
static uint32_t way_round(const struct ring *ring, uint32_t hub, uint32_t *hubs)
{
    uint32_t n = hubs_of(ring), at = hub;
    for (uint32_t count = 0; count < n && at < n; at = field(ring, at, 5)) {
        hubs[count++] = at;
        if (field(ring, at, 5) == hub) return count;
    }
    return 0;
}

int take_roll(struct input *in, const struct ring *ring, struct roll *r)
{
    static const int16_t beside[8] = {0, 0, 1, 3, 4, 300, -1, -4}; /* bytes more than the hubs need, or less */
    static const uint8_t lengths[8] = {4, 4, 4, 5, 8, 3, 1, 0};
    uint32_t hubs[RING_MOST_HUBS], n = hubs_of(ring);
    if (in->left == 0 || *in->at < 128) return 0;
    uint32_t form = take_byte(in), hub = take_byte(in);
    r->hub = hub < 192 ? hub % (n + 1) : spread(hub); /* with the number of hubs, which is none */
    uint32_t count = form / 64 % 2 == 1 || r->hub >= n ? n : way_round(ring, r->hub, hubs);
    int room = (int)(4 * (count == 0 ? n : count)) + beside[form % 8];
    r->room = room < 0 ? 0 : (size_t)room;
    r->length_len = lengths[form / 8 % 8];
    return 1;
}

/* What a roll call made: the record and the roll, and the length. */
struct rolled {
    struct made m;
    struct buffer length;
};

static struct rolled by_roll(roll_call *call, const struct ring *ring, const struct roll *r, size_t guard)
{
    struct rolled made = {before(ring, r->room, guard), lend(NULL, r->length_len, guard)};
    struct made *m = &made.m;
    m->code = call(m->words.bytes, m->words.len, r->hub, m->out.bytes, m->out.len, made.length.bytes, made.length.len);
    after(m);
    must(guards_stand(&made.length), "a byte beside the length was written");
    must(ring->len == 0 || memcmp(m->words.bytes, ring->bytes, ring->len) == 0, "roll: the record was written");
    return made;
}

static void must_agree_on_roll(const struct rolled *first, struct rolled *other, const char *who)
{
    must(same_bytes(&first->length, &other->length), who);
    free(other->length.all);
    must_agree(&first->m, &other->m, who);
}

/* What the call has to return, asked here once more. Operation 4 is refused by 3, but asked after 2. */
static uint32_t has_to_return(const struct ring *ring, const struct roll *r, uint32_t *hubs, uint32_t *count)
{
    static uint8_t words[MOST_BYTES];
    uint8_t answer[RING_ANSWER_BYTES];
    if (r->length_len < RING_LENGTH_BYTES) return RING_OUTPUT_SHORT;
    if (ring->len < RING_RECORD_BYTES) return RING_RECORD_SHORT;
    memcpy(words, ring->bytes, ring->len);
    if (ring_step(words, ring->len, 4, 0, 0, answer, sizeof answer) != RING_NO_OPERATION) return RING_NOT_WELL_FORMED;
    if (r->hub >= ring_word(ring->bytes, 1)) return RING_NO_HUB;
    uint32_t state = field(ring, r->hub, 1);
    if (state < RING_INSIDE || state > RING_LEAVING) return RING_NOT_IN_RING;
    *count = way_round(ring, r->hub, hubs);
    if (*count == 0) return RING_NO_WAY_ROUND;
    return r->room / 4 < *count ? RING_OUTPUT_SHORT : RING_OK;
}

static void must_be_roll(const struct rolled *made, const uint32_t *hubs, uint32_t count)
{
    must(ring_word(made->length.bytes, 0) == count, "roll: another length than the walk has");
    for (uint32_t i = 0; i < count; i++) must(ring_word(made->m.out.bytes, i) == hubs[i], "roll: another hub than the walk has");
    must(all_marks(made->m.out.bytes + 4 * (size_t)count, made->m.out.len - 4 * (size_t)count), "roll: output behind the hubs");
    must(all_marks(made->length.bytes + RING_LENGTH_BYTES, made->length.len - RING_LENGTH_BYTES), "roll: output behind the length");
}

uint32_t checked_roll(const struct ring *ring, const struct roll *r)
{
    struct rolled traced = by_roll(traced_roll, ring, r, 0), model = by_roll(model_roll, ring, r, GUARD);
    struct rolled first = by_roll(ring_roll, ring, r, GUARD), again = by_roll(ring_roll, ring, r, GUARD);
    uint32_t code = first.m.code, hubs[RING_MOST_HUBS], count = 0;
    must_agree_on_roll(&first, &again, "roll: the same call twice, with two results");
    must_agree_on_roll(&first, &traced, "roll: the archive and the traced engine differ");
    must_agree_on_roll(&first, &model, "roll: engine and model differ");
    must(code == has_to_return(ring, r, hubs, &count), "roll: another return than its questions have");
    count_return(ROLL, code);
    if (count != 0) count_return(ROLL_WITH_WAY, code);
    if (code == RING_OK) {
        must_be_roll(&first, hubs, count);
    } else {
        must_leave_all(ring, &first.m);
        must(all_marks(first.length.bytes, first.length.len), "a refused roll call changed the length");
    }
    free(first.length.all);
    done(&first.m);
    return code;
}

struct members founder_of(const struct ring *ring)
{
    struct members m = {{0}, 1};
    for (uint32_t hub = 0; hub < hubs_of(ring); hub++) m.in[hub] = field(ring, hub, 1) == RING_INSIDE;
    return m;
}

void take_answer(struct members *m, const uint8_t *answer)
{
    uint32_t kind = ring_word(answer, 0), hub = ring_word(answer, 1) % RING_MOST_HUBS;
    if (m->count == 0 || (kind != RING_ENTERED && kind != RING_GONE)) return;
    must(m->in[hub] == (kind == RING_GONE), "a hub entered that is in the ledger, or is gone that is not");
    m->in[hub] = kind == RING_ENTERED;
    if (kind == RING_ENTERED) m->count++;
    else m->count--;
}

/* The member with the least clockwise distance from the number to its identifier. */
static uint32_t owner_by(const struct ring *ring, const struct members *m, uint32_t number)
{
    uint32_t owner = RING_MOST_HUBS;
    for (uint32_t hub = 0; hub < hubs_of(ring); hub++)
        if (m->in[hub] && (owner == RING_MOST_HUBS || field(ring, hub, 0) - number < field(ring, owner, 0) - number)) owner = hub;
    return owner;
}

static void must_have_owner(const struct ring *ring, const struct members *m, uint32_t number)
{
    uint8_t out[RING_OWNER_BYTES];
    uint32_t code = ring_owner(ring->bytes, ring->len, number, out, sizeof out);
    must(code == RING_OK && ring_word(out, 0) == owner_by(ring, m, number), "at rest: another owner than the ledger's, or none");
}

void must_be_at_rest(const struct ring *ring, const struct members *m, uint32_t from)
{
    uint8_t roll[RING_ROLL_BYTES], length[RING_LENGTH_BYTES];
    uint32_t n = hubs_of(ring), start = from % n, last = 0;
    if (m->count == 0 || ring_word(ring->bytes, 2) != 0) return;
    while (!m->in[start]) start = (start + 1) % n;
    uint32_t code = ring_roll(ring->bytes, ring->len, start, roll, sizeof roll, length, sizeof length);
    count_return(AT_REST, code);
    must(code == RING_OK && ring_word(length, 0) == m->count, "at rest: a roll that is refused, or has not as many hubs as the ledger");
    for (uint32_t i = 0; i < m->count; i++) {
        uint32_t hub = ring_word(roll, i);
        must(hub < n && m->in[hub], "at rest: a hub in a roll that is not in the ledger");
        uint32_t way = field(ring, hub, 0) - field(ring, start, 0);
        must(i == 0 ? hub == start : way > last, "at rest: a roll that does not go clockwise from its start");
        last = way;
        must_have_owner(ring, m, field(ring, hub, 0));
        must_have_owner(ring, m, field(ring, hub, 0) + 1);
    }
}
