/* The calls on an office sheet, made in several ways and held to what document 02 says of them. See calls.h. */
#include <stdlib.h>
#include <string.h>

#include "made.h"

/* Both calls, as one of those that are compared has them. */
struct calls {
    uint32_t (*read)(const uint8_t *, size_t, uint8_t *, size_t, uint8_t *, size_t, uint8_t *, size_t);
    uint32_t (*write)(const uint8_t *, size_t, const uint8_t *, size_t, uint8_t *, size_t, uint8_t *, size_t);
};

static const struct calls shipped = {ring_sheet_read, ring_sheet_write};
static const struct calls traced = {traced_sheet_read, traced_sheet_write};
static const struct calls model = {model_sheet_read, model_sheet_write};

/* What a call may only read is as it was. */
static int stays(const struct buffer *b, struct part lent)
{
    return lent.at == NULL || lent.len == 0 || memcmp(b->bytes, lent.at, lent.len) == 0;
}

/* What a call may write has marks from this byte on. */
static int unwritten(const struct buffer *b, struct part lent, size_t from)
{
    return lent.at != NULL || (from <= b->len && all_marks(b->bytes + from, b->len - from));
}

static struct sheet by_calls(const struct calls *calls, const struct request *r, size_t guard)
{
    struct sheet s = {lend(r->text.at, r->text.len, guard), lend(r->identifiers.at, r->identifiers.len, guard),
                      lend(r->names.at, r->names.len, guard), lend(NULL, r->counts.len, guard), 0};
    if (r->call == SHEET_READ)
        s.code = calls->read(s.text.bytes, s.text.len, s.identifiers.bytes, s.identifiers.len, s.names.bytes, s.names.len, s.counts.bytes,
                             s.counts.len);
    else
        s.code = calls->write(s.names.bytes, s.names.len, s.identifiers.bytes, s.identifiers.len, s.text.bytes, s.text.len, s.counts.bytes,
                              s.counts.len);
    must(guards_stand(&s.text) && guards_stand(&s.identifiers) && guards_stand(&s.names) && guards_stand(&s.counts),
         "sheet: a byte beside a buffer was written");
    must(stays(&s.text, r->text) && stays(&s.identifiers, r->identifiers) && stays(&s.names, r->names), "sheet: what is only read was written");
    return s;
}

void give_back(struct sheet *s)
{
    free(s->text.all);
    free(s->identifiers.all);
    free(s->names.all);
    free(s->counts.all);
}

static void sheets_agree(const struct sheet *first, struct sheet other, const char *who)
{
    must(first->code == other.code, who);
    must(same_bytes(&first->text, &other.text) && same_bytes(&first->identifiers, &other.identifiers), who);
    must(same_bytes(&first->names, &other.names) && same_bytes(&first->counts, &other.counts), who);
    give_back(&other);
}

static void must_be_return(const struct request *r, uint32_t code)
{
    int known = code == RING_OK || code == RING_OUTPUT_SHORT || code == RING_NO_SHEET || code == RING_ROOM_SHORT;
    must(known || (r->call == SHEET_READ && code == RING_IDENTIFIER_TOO_LARGE), "sheet: a return that document 02 does not have");
    must((code == RING_OUTPUT_SHORT) == (r->counts.len < RING_COUNTS_BYTES), "sheet: 17 with enough counts, or another number without");
}

/* What was counted was written and nothing else: so many names, each with its zero byte, or so many rows, the last with its CR LF. */
static void must_be_counted(const struct request *r, const struct sheet *s)
{
    size_t rows = ring_word(s->counts.bytes, 0), bytes = ring_word(s->counts.bytes, 2), zeros = 0;
    must(ring_word(s->counts.bytes, 1) == 0 && ring_word(s->counts.bytes, 3) == 0, "sheet: counts that no buffer has");
    must(unwritten(&s->counts, r->counts, RING_COUNTS_BYTES), "sheet: output behind the counts");
    must(unwritten(&s->identifiers, r->identifiers, 4 * rows), "sheet: output behind the identifiers");
    must(unwritten(&s->names, r->names, bytes) && unwritten(&s->text, r->text, bytes), "sheet: output behind the names or the text");
    must(4 * rows <= s->identifiers.len, "sheet: more rows than identifiers");
    if (r->call == SHEET_READ) {
        for (size_t i = 0; i < bytes; i++) zeros += s->names.bytes[i] == 0;
        must(zeros == rows && (bytes == 0 || s->names.bytes[bytes - 1] == 0), "sheet: not one name with its zero byte for each row");
    } else {
        must(rows == s->identifiers.len / 4, "sheet: not one row for each identifier");
        must(rows == 0 ? bytes == 0 : memcmp(s->text.bytes + bytes - 2, "\r\n", 2) == 0, "sheet: a last row without CR LF");
    }
}

struct sheet checked_sheet(const struct request *r)
{
    struct sheet first = by_calls(&shipped, r, GUARD);
    sheets_agree(&first, by_calls(&shipped, r, GUARD), "sheet: the same call twice, with two results");
    sheets_agree(&first, by_calls(&traced, r, 0), "sheet: the archive and the traced engine differ");
    sheets_agree(&first, by_calls(&model, r, GUARD), "sheet: engine and model differ");
    must_be_return(r, first.code);
    count_return(r->call, first.code);
    if (first.code == RING_OK)
        must_be_counted(r, &first);
    else
        must(unwritten(&first.text, r->text, 0) && unwritten(&first.identifiers, r->identifiers, 0) && unwritten(&first.names, r->names, 0) &&
                 unwritten(&first.counts, r->counts, 0),
             "sheet: a refused call wrote something");
    return first;
}
