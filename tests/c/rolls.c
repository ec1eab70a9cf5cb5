/*
 * The roll from a hub, ring_roll (document 02, 2026-07): every length of its buffers, its questions in all combinations, ways round and ways that
 * do not come back, and what it gives while a hub goes and comes again, message by message. Each roll that it has to give is put down here by hand.
 */
#include "buffers.h"

/* How many bytes of each are lent. */
struct room {
    size_t words, roll, length;
};

/* What a call made of its own copies. */
struct made {
    struct buffer words, roll, length;
    uint32_t code;
};

static struct room exact(size_t count)
{
    return (struct room){RING_RECORD_BYTES, 4 * count, RING_LENGTH_BYTES};
}

static struct made call(const uint8_t *record, uint32_t hub, struct room room)
{
    struct made m = {lend(record, RING_RECORD_BYTES, room.words), lend(NULL, 0, room.roll), lend(NULL, 0, room.length), 0};
    m.code = ring_roll(m.words.bytes, m.words.len, hub, m.roll.bytes, m.roll.len, m.length.bytes, m.length.len);
    expect(unchanged(&m.words, record, RING_RECORD_BYTES), "roll: the record stays");
    return m;
}

static void done(struct made *m)
{
    free(m->words.all);
    free(m->roll.all);
    free(m->length.all);
}

static void refused(const uint8_t *record, uint32_t hub, struct room room, uint32_t code, const char *what)
{
    struct made m = call(record, hub, room);
    expect(m.code == code, what);
    expect(untouched(&m.roll, 0) && untouched(&m.length, 0), "a refused roll leaves both outputs");
    done(&m);
}

/* These hubs, and nothing behind them or behind their count. */
static void gives(const uint8_t *record, uint32_t hub, struct room room, const uint32_t *hubs, size_t count)
{
    struct made m = call(record, hub, room);
    int same = m.code == RING_OK && ring_word(m.length.bytes, 0) == count;
    expect(same, "roll: accepted, and so many hubs");
    for (size_t i = 0; same && i < count; i++) expect(ring_word(m.roll.bytes, i) == hubs[i], "roll: the hubs in their order");
    expect(!same || untouched(&m.roll, 4 * count), "roll: bytes behind the hubs");
    expect(!same || untouched(&m.length, RING_LENGTH_BYTES), "roll: bytes behind the length");
    done(&m);
}

/* The roll as it is written down here: a digit for each hub; or E and a refusal, in hexadecimal. */
static void says(const uint8_t *record, uint32_t hub, const char *roll)
{
    uint32_t hubs[8];
    size_t count = strlen(roll);
    if (roll[0] == 'E') {
        refused(record, hub, exact(8), (uint32_t)strtoul(roll + 1, NULL, 16), roll);
        return;
    }
    for (size_t i = 0; i < count; i++) hubs[i] = (uint32_t)(roll[i] - '0');
    gives(record, hub, exact(count), hubs, count);
    gives(record, hub, exact(8), hubs, count);
}

/* Each output around the least and the record around its own, from a hub of a ring of n. */
static void at_each_length(const uint8_t *record, uint32_t n, uint32_t hub)
{
    uint32_t hubs[RING_MOST_HUBS];
    for (uint32_t i = 0; i < n; i++) hubs[i] = (hub + i) % n;
    struct room room = exact(n);
    for (room.length = 0; room.length <= 8; room.length++) {
        if (room.length < RING_LENGTH_BYTES) refused(record, hub, room, RING_OUTPUT_SHORT, "roll: 17 with less than 4 bytes for the length");
        else gives(record, hub, room, hubs, n);
    }
    room = exact(n);
    for (room.roll = 4 * n < 9 ? 0 : 4 * n - 9; room.roll <= 4 * n + 9; room.roll++) {
        if (room.roll < 4 * n) refused(record, hub, room, RING_OUTPUT_SHORT, "roll: 17 with a byte less than the hubs need");
        else gives(record, hub, room, hubs, n);
    }
    room.roll = 0;
    refused(record, hub, room, RING_OUTPUT_SHORT, "roll: 17 with no byte for the hubs");
    room.roll = RING_ROLL_BYTES + 3;
    for (size_t k = 0; k < LENGTHS; k++) {
        room.words = lengths[k];
        if (room.words < RING_RECORD_BYTES) refused(record, hub, room, RING_RECORD_SHORT, "roll: 1 below 7952 bytes");
        else gives(record, hub, room, hubs, n);
    }
}

/* Each question alone and with the others: the first that is answered no is told. Hub 3 leads into the ring of hubs 0 and 1, and not back. */
static void questions_in_order(void)
{
    static const uint32_t rows[4][7] = {{100, RING_INSIDE, 0, 0, 1, 1, NONE}, {200, RING_INSIDE, 0, 0, 0, 0, NONE},
                                        {300, RING_OUTSIDE, 0, 0, NONE, NONE, NONE}, {400, RING_INSIDE, 0, 0, 1, 0, NONE}};
    static const struct {
        uint32_t hub, code;
    } hubs[] = {{1, RING_OK}, {4, RING_NO_HUB}, {255, RING_NO_HUB}, {4294967295u, RING_NO_HUB}, {2, RING_NOT_IN_RING}, {3, RING_NO_WAY_ROUND}};
    static uint8_t record[RING_RECORD_BYTES];
    for (size_t k = 0; k < 16 * COUNT(hubs); k++) {
        uint32_t hub = hubs[k / 16].hub, code = hubs[k / 16].code;
        struct room room = {RING_RECORD_BYTES - (k & 1), k & 2 ? 7 : 8, RING_LENGTH_BYTES - (k >> 2 & 1)};
        put_rows(record, rows, 4);
        if (k & 8) record[RING_RECORD_BYTES - 2] = 1;
        if (code == RING_OK && k & 2) code = RING_OUTPUT_SHORT;
        if (k & 8) code = RING_NOT_WELL_FORMED;
        if (k & 1) code = RING_RECORD_SHORT;
        if (k & 4) code = RING_OUTPUT_SHORT;
        if (code == RING_OK) gives(record, hub, room, (const uint32_t[]){1, 0}, 2);
        else refused(record, hub, room, code, "roll: 17, 1, 2, 4, 5, 16, 17, in this order");
    }
}

/* Well-formed records that no ring has: each hub's state and succ, and the rolls. A hub that is outside or joining has no succ. */
static void ways(void)
{
    static const struct {
        uint32_t states[5], succ[5];
        const char *rolls[5];
    } records[] = {
        {{2, 2, 2, 2, 2}, {0, 1, 2, 3, 4}, {"0", "1", "2", "3", "4"}},
        {{2, 2, 2, 2, 2}, {3, 4, 0, 1, 2}, {"03142", "14203", "20314", "31420", "42031"}},
        {{2, 2, 2, 2, 2}, {1, 2, 3, 4, 4}, {"E10", "E10", "E10", "E10", "4"}},
        {{2, 2, 2, 2, 2}, {1, 2, 3, 4, 1}, {"E10", "1234", "2341", "3412", "4123"}},
        {{2, 2, 2, 2, 2}, {1, 0, 3, 4, 2}, {"01", "10", "234", "342", "423"}},
        {{0, 2, 1, 2, 2}, {NONE, 0, NONE, 2, 3}, {"E05", "E10", "E05", "E10", "E10"}},
        {{2, 3, 4, 2, 4}, {1, 2, 3, 4, 0}, {"01234", "12340", "23401", "34012", "40123"}},
    };
    static uint8_t record[RING_RECORD_BYTES];
    for (size_t k = 0; k < COUNT(records); k++) {
        uint32_t rows[5][7];
        for (uint32_t hub = 0; hub < 5; hub++) {
            uint32_t state = records[k].states[hub], succ = records[k].succ[hub];
            memcpy(rows[hub], (const uint32_t[]){10 * hub, state, state != RING_OUTSIDE && state != RING_INSIDE, 0, succ, succ, NONE}, sizeof rows[hub]);
        }
        put_rows(record, (const uint32_t(*)[7])rows, 5);
        for (uint32_t hub = 0; hub < 5; hub++) says(record, hub, records[k].rolls[hub]);
    }
}

/* Hub 1 of three goes and comes again: the rolls from each hub after each step. They are the ring where no message waits, and only there: the hub
 * that is gone is still in them, and when it has entered it is missing at first. */
static void while_in_use(void)
{
    static const struct {
        uint32_t operation, x, y, answer;
        const char *rolls[3];
    } steps[] = {
        {RING_LEAVE, 1, 0, RING_QUIET, {"012", "120", "201"}},
        {RING_DELIVER, 1, 2, RING_QUIET, {"012", "120", "201"}},
        {RING_DELIVER, 2, 1, RING_QUIET, {"012", "120", "201"}},
        {RING_DELIVER, 1, 2, RING_GONE, {"012", "120", "201"}},
        {RING_DELIVER, 2, 0, RING_QUIET, {"02", "E10", "20"}},
        {RING_DELIVER, 0, 1, RING_LEFT, {"02", "E05", "20"}},
        {RING_DELIVER, 1, 2, RING_QUIET, {"02", "E05", "20"}}, /* no message waits */
        {RING_JOIN, 1, 0, RING_QUIET, {"02", "E05", "20"}},
        {RING_DELIVER, 1, 0, RING_QUIET, {"02", "E05", "20"}},
        {RING_DELIVER, 0, 2, RING_ENTERED, {"02", "E05", "20"}},
        {RING_DELIVER, 2, 1, RING_QUIET, {"02", "E10", "20"}},
        {RING_DELIVER, 1, 0, RING_QUIET, {"012", "120", "201"}},
        {RING_DELIVER, 0, 2, RING_QUIET, {"012", "120", "201"}},
        {RING_DELIVER, 2, 1, RING_JOINED, {"012", "120", "201"}}, /* no message waits */
    };
    static const uint32_t rows[3][7] = {{100, RING_INSIDE, 0, 0, 2, 1, NONE}, {200, RING_INSIDE, 0, 0, 0, 2, NONE}, {300, RING_INSIDE, 0, 0, 1, 0, NONE}};
    static uint8_t record[RING_RECORD_BYTES];
    uint8_t out[RING_ANSWER_BYTES];
    put_rows(record, rows, 3);
    for (size_t k = 0; k < COUNT(steps); k++) {
        expect(ring_step(record, sizeof record, steps[k].operation, steps[k].x, steps[k].y, out, sizeof out) == RING_OK, "roll: a step between");
        expect(ring_word(out, 0) == steps[k].answer, "roll: the step's answer");
        expect((ring_word(record, 2) == 0) == (k == 6 || k == COUNT(steps) - 1), "roll: how many messages wait");
        for (uint32_t hub = 0; hub < 3; hub++) says(record, hub, steps[k].rolls[hub]);
    }
}

void rolls(void)
{
    static const uint32_t counts[] = {1, 2, 3, 63, 64};
    static uint8_t record[RING_RECORD_BYTES];
    for (size_t k = 0; k < COUNT(counts); k++) {
        uint32_t n = counts[k];
        put_circle(record, n);
        at_each_length(record, n, 0);
        at_each_length(record, n, n - 1);
        refused(record, n, exact(n), RING_NO_HUB, "roll: 4 from the number of hubs on");
    }
    questions_in_order();
    ways();
    while_in_use();
}
