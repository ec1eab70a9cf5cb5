/*
 * What a call made of the buffers that it was lent, and what must hold of that whichever call it was. For calls.c, founding.c, office.c,
 * custody.c, routes.c and rolls.c.
 */
#ifndef MADE_H
#define MADE_H

#include "calls.h"

#define GUARD 64

/*
 * A buffer of its very own size. AddressSanitizer watches the edges of memory for instrumented code, so the traced engine gets no guard bytes
 * (guard 0). The archive is not instrumented: for it, bytes on both sides are compared after the call.
 */
struct buffer {
    uint8_t *all, *bytes;
    size_t len, guard;
};

/* A buffer with this content, or full of marks where there is none. */
struct buffer lend(const uint8_t *content, size_t len, size_t guard);
int all_marks(const uint8_t *bytes, size_t len);
int guards_stand(const struct buffer *b);
int same_bytes(const struct buffer *a, const struct buffer *b);

/* What a call made of its own copy of the record, and of an output full of marks. */
struct made {
    struct buffer words, out;
    uint32_t code;
};

struct made before(const struct ring *ring, size_t out_len, size_t guard);
void after(struct made *m);
void done(struct made *m);

/* Holds the archive's second result, the traced engine's and the model's to the archive's first, and frees them. */
void must_agree(const struct made *first, struct made *other, const char *who);
void must_leave_all(const struct ring *ring, const struct made *m);

/* After an accepted call: the tails stay, and both calls find the record well formed. */
void must_be_well_formed(const struct ring *ring, const struct made *m);

/*
 * How many calls were compared, for the last lines of a run; and of these calls, how often each returned each number. tests/fuzz/run looks there
 * whether the seeds reach them all. A question of a route counts too: it is compared with a step. A roll call whose way comes back counts twice: it
 * can lack nothing but room.
 */
enum told {
    FRESH, FRESH_BY, SHEET_READ, SHEET_WRITE, FRESH_CARDS, FRESH_BY_CARDS, STEP_CARDS, ONLY_MEMBER, OFFER, ROUTE, QUESTION, ROLL, ROLL_WITH_WAY,
    AT_REST, TOLD
};
void count_call(void);
void count_return(enum told call, uint32_t code);

/* A call on an office sheet: what it reads; or, where there is nothing to read (NULL), how many bytes it is lent for writing. */
struct part {
    const uint8_t *at;
    size_t len;
};
struct request {
    enum told call;
    struct part text, identifiers, names, counts;
};

/* What such a call made of its own copy of each buffer. */
struct sheet {
    struct buffer text, identifiers, names, counts;
    uint32_t code;
};

struct sheet checked_sheet(const struct request *r);
void give_back(struct sheet *s);

#endif
