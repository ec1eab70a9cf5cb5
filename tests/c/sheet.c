/*
 * The calls on an office sheet, ring_sheet_read and ring_sheet_write (document 02, 2026-03), at the edges of their buffers: each list is read
 * and written with every buffer at, below and above what is needed; each refusal, their order, and that a refused call writes nothing. What
 * is expected stands here by hand, byte for byte.
 */
#include "sheet.h"

#define AMPLE 64 /* more than any list or wrong text of this file needs */

static const struct list lists[] = {
    {BYTES(""), BYTES(""), BYTES(""), BYTES("")},
    {BYTES("hub,1\r\n"), BYTES("hub\0"), BYTES("\1\0\0\0"), BYTES("hub,1\r\n")},
    {BYTES("hub,1"), BYTES("hub\0"), BYTES("\1\0\0\0"), BYTES("hub,1\r\n")},
    {BYTES(",0"), BYTES("\0"), BYTES("\0\0\0\0"), BYTES(",0\r\n")},
    {BYTES("\"\",\"0\"\r\n,0"), BYTES("\0\0"), BYTES("\0\0\0\0\0\0\0\0"), BYTES(",0\r\n,0\r\n")},
    {BYTES("a,\"00012\"\r\n\"b\",12"), BYTES("a\0b\0"), BYTES("\14\0\0\0\14\0\0\0"), BYTES("a,12\r\nb,12\r\n")},
    {BYTES("\"the \"\"far\"\" one\",67305985\r\n"), BYTES("the \"far\" one\0"), BYTES("\1\2\3\4"), BYTES("\"the \"\"far\"\" one\",67305985\r\n")},
    {BYTES("\"\"\"\",4294967295\r\n"), BYTES("\"\0"), BYTES("\377\377\377\377"), BYTES("\"\"\"\",4294967295\r\n")},
    {BYTES("\",\",10\r\n\"\r\",100\r\n\"\n\",99"), BYTES(",\0\r\0\n\0"), BYTES("\12\0\0\0\144\0\0\0\143\0\0\0"),
     BYTES("\",\",10\r\n\"\r\",100\r\n\"\n\",99\r\n")},
    {BYTES("\"a\r\nb,2\r\n\",256\r\n"), BYTES("a\r\nb,2\r\n\0"), BYTES("\0\1\0\0"), BYTES("\"a\r\nb,2\r\n\",256\r\n")},
    {BYTES("\357\273\277 a\t,2147483648\r\n"), BYTES("\357\273\277 a\t\0"), BYTES("\0\0\0\200"), BYTES("\357\273\277 a\t,2147483648\r\n")},
    {BYTES("\"\377\",00000000004294967294"), BYTES("\377\0"), BYTES("\376\377\377\377"), BYTES("\377,4294967294\r\n")},
};

/* Texts that are no sheet: 19, also where an identifier is too large. */
static const struct bytes no_sheets[] = {
    BYTES("\r\n"), BYTES("\n"), BYTES("\r"), BYTES(","), BYTES("\""), BYTES("\"\""), BYTES("\"\","), BYTES("a"), BYTES("a\r\n"),
    BYTES("a,"), BYTES("a,\r\n"), BYTES("a,1,"), BYTES("a,1,2\r\n"), BYTES("a,1\r"), BYTES("a,1\n"), BYTES("a,1\rb,2\r\n"),
    BYTES("a,1\nb,2\r\n"), BYTES("a,1\r\r\n"), BYTES("a,1\r\n\r\n"), BYTES("\r\na,1\r\n"), BYTES("a,1\r\n\n"), BYTES("a,1\n\r"),
    BYTES("a\rb,1\r\n"), BYTES("a\nb,1\r\n"), BYTES("a\"b,1\r\n"), BYTES("a\",1\r\n"), BYTES("\"a,1\r\n"), BYTES("\"a\"\",1\r\n"),
    BYTES("\"a\"b,1\r\n"), BYTES("\"a\" ,1\r\n"), BYTES(" \"a\",1\r\n"), BYTES("\"a\"\r\n,1\r\n"), BYTES("a,-1"), BYTES("a,+1"),
    BYTES("a, 1"), BYTES("a,1 "), BYTES("a,1x"), BYTES("a,0x1"), BYTES("a,1.0"), BYTES("a,/"), BYTES("a,:"), BYTES("a,\261"),
    BYTES("a,\"\""), BYTES("a,\"1"), BYTES("a,\"1\"2"), BYTES("a,\"1\"\"\""), BYTES("a,1\""), BYTES("a,\"1\" "), BYTES("a,\"1\r\n\""),
    BYTES("a,\" 1\""), BYTES("a,\"1\"\n"), BYTES("a,\"1\"\"2\""), BYTES("a,\"1\"\r2"), BYTES("\0"), BYTES("\0,1\r\n"), BYTES("a\0,1\r\n"),
    BYTES("\"\0\",1\r\n"), BYTES("\"a\0\",1\r\n"), BYTES("\"a\"\0,1"), BYTES("a,1\0"), BYTES("a,\"1\0\""), BYTES("a,1\r\n\0"), BYTES("a,1\r\0"),
    BYTES("a,4294967296\r\nb\r\n"), BYTES("a\r\nb,4294967296\r\n"), BYTES("a,4294967296x"), BYTES("a,4294967296,"),
    BYTES("a,4294967296\r\nb,2\n"), BYTES("a\0,4294967296\r\n"), BYTES("a,4294967296\r\n\"b\0\",2\r\n"), BYTES("a,\"4294967296"),
};

/* Sheets with an identifier that is too large: 20. One of them is 2^64 + 1, which is 1 where a number is kept in 64 bits. */
static const struct bytes too_large[] = {
    BYTES("a,4294967296"), BYTES("a,\"4294967296\"\r\n"), BYTES("a,0004294967296"), BYTES("a,4294967300"), BYTES("a,10000000000\r\n"),
    BYTES("a,18446744073709551617"), BYTES("a,99999999999999999999999"), BYTES("a,4294967296\r\nb,1\r\n"),
    BYTES("a,1\r\nb,4294967296\r\nc,2"), BYTES("\"\"\"\",1\r\n,42949672950"),
};

/* Names that are not one for each identifier: 19. Where identifiers are not whole words, the last of them is none. */
static const struct {
    struct bytes names, identifiers;
} no_lists[] = {
    {BYTES(""), BYTES("\1\0\0\0")},     {BYTES("a\0"), BYTES("")},
    {BYTES("a"), BYTES("\1\0\0\0")},    {BYTES("a"), BYTES("")},
    {BYTES("\0"), BYTES("")},           {BYTES("\0\0"), BYTES("\1\0\0\0")},
    {BYTES("a\0b"), BYTES("\1\0\0\0")}, {BYTES("a\0b"), BYTES("\1\0\0\0\2\0\0\0")},
    {BYTES("a\0\0"), BYTES("\1\0\0\0")}, {BYTES("a\0b\0"), BYTES("\1\0\0\0")},
    {BYTES("a\0"), BYTES("\1\0\0")},    {BYTES("a\0b\0"), BYTES("\1\0\0\0\2\0\0")},
    {BYTES("a\0"), BYTES("\1\0\0\0\2\0\0\0")}, {BYTES("\"\0,"), BYTES("\1\0\0\0\2\0\0\0")},
};

/* The buffers of a call on a sheet, whichever way it goes, and what the call returned. */
struct call {
    struct buffer text, identifiers, names, counts;
    uint32_t code;
};

/* How many bytes of each output are lent. Text is an output where a sheet is written, identifiers and names where one is read. */
struct room {
    size_t text, identifiers, names, counts;
};

static void give_back(struct call *c)
{
    free(c->text.all);
    free(c->identifiers.all);
    free(c->names.all);
    free(c->counts.all);
}

static struct call reading(struct bytes text, struct room room)
{
    struct call c = {lend(text.at, text.len, text.len), lend(NULL, 0, room.identifiers), lend(NULL, 0, room.names), lend(NULL, 0, room.counts), 0};
    c.code = ring_sheet_read(c.text.bytes, c.text.len, c.identifiers.bytes, c.identifiers.len, c.names.bytes, c.names.len, c.counts.bytes,
                             c.counts.len);
    expect(unchanged(&c.text, text.at, text.len), "sheet: a text that is read stays");
    return c;
}

static struct call writing(struct bytes names, struct bytes identifiers, struct room room)
{
    struct call c = {lend(NULL, 0, room.text), lend(identifiers.at, identifiers.len, identifiers.len), lend(names.at, names.len, names.len),
                     lend(NULL, 0, room.counts), 0};
    c.code = ring_sheet_write(c.names.bytes, c.names.len, c.identifiers.bytes, c.identifiers.len, c.text.bytes, c.text.len, c.counts.bytes,
                              c.counts.len);
    expect(unchanged(&c.names, names.at, names.len), "sheet: names that are written stay");
    expect(unchanged(&c.identifiers, identifiers.at, identifiers.len), "sheet: identifiers that are written stay");
    return c;
}

/* Whether an output begins with these bytes, and nothing was written behind them. */
static int holds(const struct buffer *b, struct bytes expected)
{
    return b->len >= expected.len && unchanged(b, expected.at, expected.len);
}

static int counted(const struct buffer *counts, size_t rows, size_t bytes)
{
    uint8_t expected[RING_COUNTS_BYTES] = {0};
    put(expected, 0, (uint32_t)rows);
    put(expected, 2, (uint32_t)bytes);
    return holds(counts, (struct bytes){expected, sizeof expected});
}

static void reads(const struct list *list, struct room room)
{
    struct call c = reading(list->text, room);
    expect(c.code == RING_OK, "sheet: read");
    expect(holds(&c.identifiers, list->identifiers), "sheet: the identifiers, and nothing behind them");
    expect(holds(&c.names, list->names), "sheet: the names, and nothing behind them");
    expect(counted(&c.counts, list->identifiers.len / 4, list->names.len), "sheet: rows and bytes of names, and nothing behind them");
    give_back(&c);
}

static void reads_not(struct bytes text, struct room room, uint32_t code, const char *what)
{
    struct call c = reading(text, room);
    expect(c.code == code, what);
    expect(untouched(&c.identifiers, 0) && untouched(&c.names, 0) && untouched(&c.counts, 0), "a sheet refused writes nothing");
    give_back(&c);
}

static void writes(const struct list *list, struct room room)
{
    struct call c = writing(list->names, list->identifiers, room);
    expect(c.code == RING_OK, "sheet: written");
    expect(holds(&c.text, list->written), "sheet: the text, and nothing behind it");
    expect(counted(&c.counts, list->identifiers.len / 4, list->written.len), "sheet: rows and bytes of text, and nothing behind them");
    give_back(&c);
}

static void writes_not(struct bytes names, struct bytes identifiers, struct room room, uint32_t code, const char *what)
{
    struct call c = writing(names, identifiers, room);
    expect(c.code == code, what);
    expect(untouched(&c.text, 0) && untouched(&c.counts, 0), "names refused write nothing");
    give_back(&c);
}

/* The room that a list needs, read or written. */
static struct room needed(const struct list *list)
{
    return (struct room){list->written.len, list->identifiers.len, list->names.len, RING_COUNTS_BYTES};
}

/* The list read with this room: in full where there is enough, not at all where there is not. */
static void read_with(const struct list *list, struct room room)
{
    struct room need = needed(list);
    if (room.counts < need.counts) reads_not(list->text, room, RING_OUTPUT_SHORT, "read: counts of 15 bytes or less: 17, before 21");
    else if (room.identifiers < need.identifiers) reads_not(list->text, room, RING_ROOM_SHORT, "read: an identifier without a place: 21");
    else if (room.names < need.names) reads_not(list->text, room, RING_ROOM_SHORT, "read: names without room: 21");
    else reads(list, room);
}

static void written_with(const struct list *list, struct room room)
{
    struct room need = needed(list);
    if (room.counts < need.counts)
        writes_not(list->names, list->identifiers, room, RING_OUTPUT_SHORT, "write: counts of 15 bytes or less: 17, before 21");
    else if (room.text < need.text) writes_not(list->names, list->identifiers, room, RING_ROOM_SHORT, "write: text without room: 21");
    else writes(list, room);
}

/* Each output in turn from no byte to some more than are needed, the others of a length that is enough, or 0. */
static void at_each_length(const struct list *list)
{
    struct room need = needed(list);
    for (size_t len = 0; len <= need.identifiers + 7; len++) {
        read_with(list, (struct room){0, len, need.names, need.counts});
        read_with(list, (struct room){0, len, 0, need.counts});
    }
    for (size_t len = 0; len <= need.names + 4; len++) {
        read_with(list, (struct room){0, need.identifiers, len, need.counts});
        read_with(list, (struct room){0, need.identifiers + 3, len, need.counts + 1});
    }
    for (size_t len = 0; len <= need.text + 4; len++) written_with(list, (struct room){len, 0, 0, need.counts});
    for (size_t len = 0; len <= need.counts + 8; len++) {
        read_with(list, (struct room){0, need.identifiers, need.names, len});
        read_with(list, (struct room){0, 0, 0, len});
        written_with(list, (struct room){need.text, 0, 0, len});
        written_with(list, (struct room){0, 0, 0, len});
    }
}

void just_fits(const struct list *list)
{
    struct room need = needed(list);
    read_with(list, need);
    written_with(list, need);
    read_with(list, (struct room){0, need.identifiers - 1, need.names, need.counts});
    read_with(list, (struct room){0, need.identifiers, need.names - 1, need.counts});
    written_with(list, (struct room){need.text - 1, 0, 0, need.counts});
}

/* What is written is read again as the same list; and identifiers may have bytes left over when they are written. */
static void there_and_back(const struct list *list)
{
    struct list back = {list->written, list->names, list->identifiers, list->written};
    reads(&back, needed(&back));
    for (size_t over = 1; over <= 3; over++) {
        struct buffer identifiers = lend(list->identifiers.at, list->identifiers.len, list->identifiers.len + over);
        struct list longer = {list->text, list->names, {identifiers.bytes, identifiers.len}, list->written};
        writes(&longer, needed(list));
        free(identifiers.all);
    }
}

void is_refused(struct bytes text, uint32_t code)
{
    reads_not(text, (struct room){0, 0, 0, RING_COUNTS_BYTES}, code, "read: 19 is asked before 20, and 20 before 21");
}

/* The same with whatever room there is; but with short counts it is 17. */
static void is_refused_with_any_room(struct bytes text, uint32_t code)
{
    static const struct room rooms[] = {{0, AMPLE, AMPLE, RING_COUNTS_BYTES}, {0, AMPLE, 0, RING_COUNTS_BYTES + 8}, {0, 3, AMPLE, RING_COUNTS_BYTES}};
    is_refused(text, code);
    for (size_t k = 0; k < COUNT(rooms); k++) reads_not(text, rooms[k], code, "read: 19 or 20, with room for identifiers, names or both");
    reads_not(text, (struct room){0, AMPLE, AMPLE, RING_COUNTS_BYTES - 1}, RING_OUTPUT_SHORT, "read: 17 is asked before 19 and 20");
    reads_not(text, (struct room){0, 0, 0, 0}, RING_OUTPUT_SHORT, "read: 17 is asked before all others");
}

/* Names that are not one for each identifier. */
static void is_no_list(struct bytes names, struct bytes identifiers)
{
    writes_not(names, identifiers, (struct room){AMPLE, 0, 0, RING_COUNTS_BYTES}, RING_NO_SHEET, "write: not one name for each identifier: 19");
    writes_not(names, identifiers, (struct room){0, 0, 0, RING_COUNTS_BYTES}, RING_NO_SHEET, "write: 19 is asked before 21");
    writes_not(names, identifiers, (struct room){AMPLE, 0, 0, RING_COUNTS_BYTES - 1}, RING_OUTPUT_SHORT, "write: 17 is asked before 19");
    writes_not(names, identifiers, (struct room){0, 0, 0, 0}, RING_OUTPUT_SHORT, "write: 17 is asked before all others");
}

/* A list's names with a byte more or a byte less, and its identifiers with one more or one less. */
static void no_longer_a_list(const struct list *list)
{
    struct buffer names = lend(list->names.at, list->names.len, list->names.len + 1);
    struct buffer identifiers = lend(list->identifiers.at, list->identifiers.len, list->identifiers.len + 4);
    is_no_list((struct bytes){names.bytes, names.len}, list->identifiers);
    names.bytes[names.len - 1] = 0;
    is_no_list((struct bytes){names.bytes, names.len}, list->identifiers);
    is_no_list(list->names, (struct bytes){identifiers.bytes, identifiers.len});
    if (list->names.len != 0) {
        is_no_list((struct bytes){list->names.at, list->names.len - 1}, list->identifiers);
        is_no_list(list->names, (struct bytes){list->identifiers.at, list->identifiers.len - 1});
    }
    free(names.all);
    free(identifiers.all);
}

/* A ring founded from a sheet: the identifiers are handed on as they were read. Hub 1 has the smallest and founds; hub 0 joins through it. */
static void founds(void)
{
    static const struct bytes text = BYTES("\"hub \"\"north\"\"\",200\r\nsouth,100\r\n");
    struct buffer ring = lend(NULL, 0, RING_RECORD_BYTES), out = lend(NULL, 0, RING_ANSWER_BYTES);
    struct call c = reading(text, (struct room){0, 4 * RING_MOST_HUBS, text.len, RING_COUNTS_BYTES});
    size_t rows = ring_word(c.counts.bytes, 0);
    expect(c.code == RING_OK && rows == 2, "sheet: two hubs");
    expect(ring_fresh(ring.bytes, ring.len, c.identifiers.bytes, 4 * rows) == RING_OK, "a ring from a sheet");
    expect(ring_step(ring.bytes, ring.len, RING_ASK, 0, 150, out.bytes, out.len) == RING_NOT_IN_RING, "hub 0 is outside: 5");
    expect(ring_step(ring.bytes, ring.len, RING_ASK, 1, 150, out.bytes, out.len) == RING_OK, "hub 1 is asked");
    expect(ring_word(out.bytes, 0) == RING_FOUND && ring_word(out.bytes, 1) == 1 && ring_word(out.bytes, 2) == 150, "found by hub 1");
    expect(ring_step(ring.bytes, ring.len, RING_JOIN, 0, 1, out.bytes, out.len) == RING_OK, "hub 0 joins");
    expect(ring_word(ring.bytes, 4) == 200 && ring_word(ring.bytes, 11) == 100, "the identifiers of the sheet stand in the record");
    free(ring.all);
    free(out.all);
    give_back(&c);
}

void sheets(void)
{
    for (size_t k = 0; k < COUNT(lists); k++) {
        at_each_length(&lists[k]);
        there_and_back(&lists[k]);
        no_longer_a_list(&lists[k]);
    }
    for (size_t k = 0; k < COUNT(no_sheets); k++) is_refused_with_any_room(no_sheets[k], RING_NO_SHEET);
    for (size_t k = 0; k < COUNT(too_large); k++) is_refused_with_any_room(too_large[k], RING_IDENTIFIER_TOO_LARGE);
    for (size_t k = 0; k < COUNT(no_lists); k++) is_no_list(no_lists[k].names, no_lists[k].identifiers);
    founds();
    long_sheets();
}
