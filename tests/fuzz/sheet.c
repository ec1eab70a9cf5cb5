/*
 * Fuzzes the calls on an office sheet. An input is
 *
 *   lengths   4 bytes, for identifiers, names, text and counts: which length of each output is lent (0: exact ones)
 *   mode      1 byte, modulo 2, and what the rest is:
 *     0       a text. It is read, with ample room and with that of the lengths; a list that is found is written, and read again
 *     1       names. They are written with about as many identifiers as names, by the lengths' first byte; a text that comes of it is read
 */
#include <string.h>

#include "input.h"
#include "made.h"

#define MOST_IDENTIFIERS 256

int LLVMFuzzerTestOneInput(const uint8_t *data, size_t size);

/* The lengths as the input chooses them. */
struct lengths {
    uint32_t identifiers, names, text, counts;
};

/* A length around the one that is needed. */
static size_t around(size_t needed, uint32_t byte)
{
    switch (byte % 8) {
    case 1: return needed + 1 + byte / 8;
    case 2: return needed == 0 ? 0 : needed - 1;
    case 3: return needed < 4 ? 0 : needed - 4;
    case 4: return needed * (byte / 8) / 32;
    case 5: return byte / 8;
    case 6: return needed + 3;
    default: return needed;
    }
}

static size_t count_of(const struct sheet *s, size_t i)
{
    return ring_word(s->counts.bytes, 2 * i);
}

static struct request to_read(struct part text, size_t identifiers, size_t names, size_t counts)
{
    return (struct request){SHEET_READ, text, {NULL, identifiers}, {NULL, names}, {NULL, counts}};
}

/* A text that was just written of this list has it again. */
static void must_come_back(const struct request *list, struct part text)
{
    size_t len = list->identifiers.len / 4 * 4;
    struct request r = to_read(text, len, list->names.len, RING_COUNTS_BYTES);
    struct sheet s = checked_sheet(&r);
    must(s.code == RING_OK && count_of(&s, 1) == list->names.len, "sheet: a text that was written is not read, or not in full");
    must(len == 0 || memcmp(s.identifiers.bytes, list->identifiers.at, len) == 0, "sheet: other identifiers come back");
    must(list->names.len == 0 || memcmp(s.names.bytes, list->names.at, list->names.len) == 0, "sheet: other names come back");
    give_back(&s);
}

/* Names and identifiers as a sheet, with ample room (a quote is doubled, and a row has two more of them, a comma, ten digits, CR and LF). */
static uint32_t write_and_read(struct part names, struct part identifiers, const struct lengths *chosen)
{
    struct request r = {SHEET_WRITE, {NULL, 2 * names.len + 15 * (identifiers.len / 4)}, identifiers, names, {NULL, RING_COUNTS_BYTES}};
    struct sheet all = checked_sheet(&r);
    uint32_t code = all.code;
    size_t needed = code == RING_OK ? count_of(&all, 1) : names.len;
    must(code != RING_ROOM_SHORT, "sheet: 21, although there is room for every sheet of so many names");
    if (code == RING_OK) must_come_back(&r, (struct part){all.text.bytes, needed});
    give_back(&all);
    r.text.len = around(needed, chosen->text);
    r.counts.len = around(RING_COUNTS_BYTES, chosen->counts);
    all = checked_sheet(&r);
    give_back(&all);
    return code;
}

static void read_and_write(struct part text, const struct lengths *chosen)
{
    struct request r = to_read(text, text.len + 2, text.len, RING_COUNTS_BYTES);
    struct sheet all = checked_sheet(&r), some;
    int found = all.code == RING_OK;
    size_t rows = found ? count_of(&all, 0) : 0, bytes = found ? count_of(&all, 1) : 0;
    must(all.code != RING_ROOM_SHORT, "sheet: 21, although there is the room that ring.h speaks of");
    if (found) {
        uint32_t code = write_and_read((struct part){all.names.bytes, bytes}, (struct part){all.identifiers.bytes, 4 * rows}, chosen);
        must(code == RING_OK, "sheet: a list that was read is not written");
    }
    r = to_read(text, around(4 * rows, chosen->identifiers), around(bytes, chosen->names), around(RING_COUNTS_BYTES, chosen->counts));
    some = checked_sheet(&r);
    give_back(&some);
    give_back(&all);
}

/* Identifiers for these names, with 1 to 32 bits. */
static void write_names(struct part names, const struct lengths *chosen)
{
    uint8_t identifiers[4 * MOST_IDENTIFIERS + 3];
    size_t count = 0, len;
    for (size_t i = 0; i < names.len; i++) count += names.at[i] == 0;
    len = around(4 * count, chosen->identifiers);
    if (len > sizeof identifiers) len = sizeof identifiers;
    for (uint32_t i = 0; i < sizeof identifiers; i++) {
        uint32_t k = i / 4 + chosen->names;
        identifiers[i] = (uint8_t)((k + 1) * 0x9E3779B1u >> k % 32 >> 8 * (i % 4));
    }
    write_and_read(names, (struct part){identifiers, len}, chosen);
}

int LLVMFuzzerTestOneInput(const uint8_t *data, size_t size)
{
    static const uint8_t none[1];
    struct input in = {data, size};
    struct lengths chosen = {take_byte(&in), 0, 0, 0};
    chosen.names = take_byte(&in);
    chosen.text = take_byte(&in);
    chosen.counts = take_byte(&in);
    uint32_t mode = take_byte(&in) % 2;
    struct part rest = {in.left == 0 ? none : in.at, in.left};
    if (mode == 0) read_and_write(rest, &chosen);
    else write_names(rest, &chosen);
    return 0;
}
