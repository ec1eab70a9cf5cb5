/*
 * The C calls at the edges of their buffers: every length around what is needed, left-over bytes, refusals; and what C reads of a question's
 * hops. All is done three times: with guard bytes on both sides of each buffer, which no call may touch; with so few of them that no buffer
 * begins at a multiple of 2; and with none, so that valgrind or AddressSanitizer sees the first byte that is read or written beside a buffer.
 * Prints 'N passed, M failed'.
 */
#include <stdio.h>

#include "buffers.h"

static uint8_t ring[RING_RECORD_BYTES];
static const uint8_t identifiers[8] = {100, 0, 0, 0, 200, 0, 0, 0};

static void step_at_each_length(void)
{
    for (size_t len = 0; len <= 24; len++) {
        struct buffer b = lend(ring, sizeof ring, RING_RECORD_BYTES + 3), out = lend(NULL, 0, len);
        uint32_t refusal = ring_step(b.bytes, b.len, RING_ASK, 0, 150, out.bytes, out.len);
        int is_long = len >= RING_ANSWER_BYTES;
        expect(refusal == (is_long ? RING_OK : RING_OUTPUT_SHORT), "step: 17 below 20 bytes");
        expect(untouched(&out, is_long ? RING_ANSWER_BYTES : 0), "step: output behind the answer");
        expect(untouched(&b, RING_RECORD_BYTES), "step: bytes left over behind the record");
        expect(is_long || memcmp(b.bytes, ring, sizeof ring) == 0, "step: nothing happens after 17");
        expect(!is_long || (ring_word(out.bytes, 0) == RING_FOUND && ring_word(out.bytes, 2) == 150), "step: found");
        expect(!is_long || ring_word(b.bytes, 3) == 1, "step: the question is counted");
        free(b.all);
        free(out.all);
    }
}

/* A step and an owner query on a record of each length. */
static void record_of_each_length(void)
{
    for (size_t k = 0; k < LENGTHS; k++) {
        struct buffer b = lend(ring, sizeof ring, lengths[k]), hub = lend(NULL, 0, RING_OWNER_BYTES), out = lend(NULL, 0, RING_ANSWER_BYTES);
        uint32_t code = b.len >= RING_RECORD_BYTES ? RING_OK : RING_RECORD_SHORT;
        expect(ring_owner(b.bytes, b.len, 150, hub.bytes, hub.len) == code, "owner: 1 below 7952 bytes");
        expect(unchanged(&b, ring, sizeof ring), "owner: the record stays, at every length");
        expect(untouched(&hub, code == RING_OK ? hub.len : 0), "owner: the output of a refused call, and beside it");
        expect(ring_step(b.bytes, b.len, RING_ASK, 0, 150, out.bytes, out.len) == code, "step: 1 below 7952 bytes");
        expect(code == RING_OK ? untouched(&b, RING_RECORD_BYTES) : unchanged(&b, ring, sizeof ring), "step: what may not change, at every length");
        expect(untouched(&out, code == RING_OK ? out.len : 0), "step: the output of a refused call, and beside it");
        free(b.all);
        free(hub.all);
        free(out.all);
    }
}

static void step_refused(void)
{
    struct buffer b = lend(ring, sizeof ring, RING_RECORD_BYTES), out = lend(NULL, 0, RING_ANSWER_BYTES);
    expect(ring_step(b.bytes, 7951, RING_ASK, 0, 1, out.bytes, out.len) == RING_RECORD_SHORT, "7951 bytes: 1");
    expect(ring_step(b.bytes, 7951, RING_ASK, 0, 1, out.bytes, 19) == RING_OUTPUT_SHORT, "17 is asked before 1");
    expect(ring_step(b.bytes, b.len, 4, 0, 1, out.bytes, out.len) == RING_NO_OPERATION, "operation 4: 3");
    expect(ring_step(b.bytes, b.len, RING_LEAVE, 0, 0, out.bytes, out.len) == RING_LAST_HUB, "the last hub leaves: 8");
    expect(ring_step(b.bytes, b.len, RING_DELIVER, 0, 0, out.bytes, out.len) == RING_NO_MESSAGE, "an empty link: 9");
    expect(memcmp(b.bytes, ring, sizeof ring) == 0, "refused steps leave the record");
    expect(untouched(&out, 0) && untouched(&b, RING_RECORD_BYTES), "refused steps leave the output");
    b.bytes[7951] = 1;
    expect(ring_step(b.bytes, b.len, RING_ASK, 0, 1, out.bytes, out.len) == RING_NOT_WELL_FORMED, "a last byte that is not 0: 2");
    expect(b.bytes[7951] == 1 && untouched(&out, 0), "2 leaves record and output");
    free(b.all);
    free(out.all);
}

/* 12 is asked before 11: two hubs, 256 questions on their way, all tickets given but one, then none left. */
static void tickets_before_places(void)
{
    static const uint32_t entering[][2] = {{1, 0}, {0, 1}, {1, 0}, {0, 0}, {0, 1}};
    static uint8_t full[RING_RECORD_BYTES];
    uint8_t out[RING_ANSWER_BYTES];
    uint32_t code = ring_fresh(full, sizeof full, identifiers, sizeof identifiers);
    code |= ring_step(full, sizeof full, RING_JOIN, 1, 0, out, sizeof out);
    for (size_t k = 0; k < 5; k++) code |= ring_step(full, sizeof full, RING_DELIVER, entering[k][0], entering[k][1], out, sizeof out);
    expect(code == RING_OK && ring_word(out, 0) == RING_JOINED, "hub 1 joins");
    for (size_t k = 0; k < 256; k++) code |= ring_step(full, sizeof full, RING_ASK, 0, ring_word(identifiers, 1), out, sizeof out);
    expect(code == RING_OK && ring_word(full, 2) == 256, "256 questions wait");
    expect(ring_step(full, sizeof full, RING_ASK, 0, ring_word(identifiers, 1), out, sizeof out) == RING_MESSAGES_FULL, "11 where a ticket is left");
    memset(full + 12, 0xFF, 4); /* asked: the last of all numbers */
    expect(ring_step(full, sizeof full, RING_ASK, 0, ring_word(identifiers, 1), out, sizeof out) == RING_TICKETS_USED_UP, "12 is asked before 11");
    expect(ring_step(full, sizeof full, RING_ASK, 0, ring_word(identifiers, 0), out, sizeof out) == RING_TICKETS_USED_UP, "12 where none is sent");
}

/* Hops count links: while hub 1 enters, hub 0 sends a question to itself and then to hub 1. The first message uses no link, the second one. */
static void hops_count_links(void)
{
    static uint8_t two[RING_RECORD_BYTES];
    uint8_t out[RING_ANSWER_BYTES];
    uint32_t code = ring_fresh(two, sizeof two, identifiers, sizeof identifiers);
    code |= ring_step(two, sizeof two, RING_JOIN, 1, 0, out, sizeof out);
    code |= ring_step(two, sizeof two, RING_DELIVER, 1, 0, out, sizeof out);
    expect(code == RING_OK && ring_word(out, 0) == RING_ENTERED, "hub 1 enters");
    code |= ring_step(two, sizeof two, RING_ASK, 0, ring_word(identifiers, 1), out, sizeof out);
    code |= ring_step(two, sizeof two, RING_DELIVER, 0, 1, out, sizeof out); /* JOINPOINT */
    expect(ring_word(two, 453) == 0 && ring_word(two, 454) == 0 && ring_word(two, 457) == 0, "a question from hub 0 to itself, hops 0");
    code |= ring_step(two, sizeof two, RING_DELIVER, 0, 0, out, sizeof out);
    expect(ring_word(two, 459) == 0 && ring_word(two, 460) == 1 && ring_word(two, 463) == 0, "sent on to hub 1, hops 0 still");
    code |= ring_step(two, sizeof two, RING_DELIVER, 0, 1, out, sizeof out);
    expect(code == RING_OK && ring_word(out, 0) == RING_FOUND && ring_word(out, 1) == 1 && ring_word(out, 4) == 1, "found at hub 1, hops 1");
}

static void owner_at_each_length(void)
{
    for (size_t len = 0; len <= 8; len++) {
        struct buffer b = lend(ring, sizeof ring, RING_RECORD_BYTES), out = lend(NULL, 0, len);
        uint32_t refusal = ring_owner(b.bytes, b.len, 4294967295u, out.bytes, out.len);
        int is_long = len >= RING_OWNER_BYTES;
        expect(refusal == (is_long ? RING_OK : RING_OUTPUT_SHORT), "owner: 17 below 4 bytes");
        expect(untouched(&out, is_long ? RING_OWNER_BYTES : 0), "owner: output behind the hub");
        expect(!is_long || ring_word(out.bytes, 0) == 0, "owner: hub 0 holds all");
        expect(memcmp(b.bytes, ring, sizeof ring) == 0 && untouched(&b, RING_RECORD_BYTES), "owner: the record stays");
        free(b.all);
        free(out.all);
    }
}

static void owner_refused(void)
{
    struct buffer b = lend(ring, sizeof ring, RING_RECORD_BYTES), out = lend(NULL, 0, RING_OWNER_BYTES);
    expect(ring_owner(b.bytes, 7951, 1, out.bytes, 3) == RING_OUTPUT_SHORT, "owner: 17 is asked before 1");
    b.bytes[7951] = 1;
    expect(ring_owner(b.bytes, b.len, 1, out.bytes, out.len) == RING_NOT_WELL_FORMED, "owner: a last byte that is not 0: 2");
    b.bytes[7951] = 0;
    b.bytes[4 * 5] = 4; /* hub 0 is leaving, locked: nobody holds a number */
    b.bytes[4 * 6] = 1;
    expect(ring_owner(b.bytes, b.len, 1, out.bytes, out.len) == RING_NO_HOLDER, "owner: no hub holds the number: 15");
    expect(untouched(&out, 0) && untouched(&b, b.len), "refused owner queries leave the output");
    free(b.all);
    free(out.all);
}

int main(void)
{
    static const size_t guards[] = {64, 3, 0};
    if (ring_fresh(ring, sizeof ring, identifiers, sizeof identifiers) != RING_OK) return 2;
    for (size_t k = 0; k < COUNT(guards); k++) {
        guard = guards[k];
        foundings();
        ranges();
        routes();
        rolls();
        sheets();
        price_cards();
        step_at_each_length();
        record_of_each_length();
        step_refused();
        tickets_before_places();
        hops_count_links();
        owner_at_each_length();
        owner_refused();
    }
    printf("%u passed, %u failed\n", passed, failed);
    return failed != 0;
}
