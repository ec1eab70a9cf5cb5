/* See made.h. */
#include <stdio.h>
#include <stdlib.h>
#include <string.h>

#include "made.h"

#define MARK 0xA5

void must(int holds, const char *what)
{
    if (holds) return;
    fprintf(stderr, "FINDING: %s\n", what);
    abort();
}

#define RETURNS (RING_PLACES_SHORT + 1) /* one more than the highest */

static unsigned long long compared, returned[TOLD][RETURNS], made[TOLD];

static void say_compared(void)
{
    static const char *const names[TOLD] = {
        "ring_fresh",       "ring_fresh_by",       "ring_sheet_read", "ring_sheet_write",
        "ring_fresh_cards", "ring_fresh_by_cards", "ring_step_cards", "ring_step_cards of the only member",
        "ring_offer",       "ring_route",          "ring_route's questions", "ring_roll",
        "ring_roll on a way round", "ring_roll at rest",
    };
    fprintf(stderr, "calls compared: %llu\n", compared);
    for (unsigned call = 0; call < TOLD; call++) {
        if (made[call] == 0) continue;
        fprintf(stderr, "calls of %s by return", names[call]);
        for (unsigned code = 0; code < RETURNS; code++)
            if (returned[call][code] != 0) fprintf(stderr, ", %u: %llu", code, returned[call][code]);
        fprintf(stderr, "\n");
    }
}

void count_call(void)
{
    if (compared++ == 0) atexit(say_compared);
}

void count_return(enum told call, uint32_t code)
{
    count_call();
    made[call]++;
    returned[call][code]++;
}

void put_word(struct ring *ring, size_t i, uint32_t value)
{
    for (size_t k = 0; k < 4; k++) ring->bytes[4 * i + k] = (uint8_t)(value >> 8 * k);
}

struct buffer lend(const uint8_t *content, size_t len, size_t guard)
{
    struct buffer b = {malloc(guard + len + guard), NULL, len, guard};
    if (b.all == NULL) exit(2);
    memset(b.all, MARK, guard + len + guard);
    b.bytes = b.all + guard;
    if (content != NULL && len != 0) memcpy(b.bytes, content, len);
    return b;
}

int all_marks(const uint8_t *bytes, size_t len)
{
    for (size_t i = 0; i < len; i++)
        if (bytes[i] != MARK) return 0;
    return 1;
}

int guards_stand(const struct buffer *b)
{
    return all_marks(b->all, b->guard) && all_marks(b->bytes + b->len, b->guard);
}

int same_bytes(const struct buffer *a, const struct buffer *b)
{
    return a->len == 0 || memcmp(a->bytes, b->bytes, a->len) == 0;
}

struct made before(const struct ring *ring, size_t out_len, size_t guard)
{
    struct made m = {lend(ring->bytes, ring->len, guard), lend(NULL, out_len, guard), 0};
    return m;
}

void after(struct made *m)
{
    must(guards_stand(&m->words), "a byte beside the record was written");
    must(guards_stand(&m->out), "a byte beside the output was written");
}

void done(struct made *m)
{
    free(m->words.all);
    free(m->out.all);
}

void must_agree(const struct made *first, struct made *other, const char *who)
{
    must(first->code == other->code, who);
    must(same_bytes(&first->words, &other->words), who);
    must(same_bytes(&first->out, &other->out), who);
    done(other);
}

void must_leave_all(const struct ring *ring, const struct made *m)
{
    must(ring->len == 0 || memcmp(m->words.bytes, ring->bytes, ring->len) == 0, "a call that may not changed the record");
    must(all_marks(m->out.bytes, m->out.len), "a refused call changed the output");
}

/* Operation 4 is refused by 3, but asked after 2. */
void must_be_well_formed(const struct ring *ring, const struct made *m)
{
    uint8_t hub[RING_OWNER_BYTES], answer[RING_ANSWER_BYTES];
    uint32_t owner = ring_owner(m->words.bytes, m->words.len, ring_word(m->words.bytes, 4), hub, sizeof hub);
    must(owner == RING_OK || owner == RING_NO_HOLDER, "after an accepted call, owner finds the record not well formed");
    must(ring_step(m->words.bytes, m->words.len, 4, 0, 0, answer, sizeof answer) == RING_NO_OPERATION,
         "after an accepted call, step finds the record not well formed");
    must(memcmp(m->words.bytes + RING_RECORD_BYTES, ring->bytes + RING_RECORD_BYTES, ring->len - RING_RECORD_BYTES) == 0,
         "an accepted call wrote behind the record");
}
