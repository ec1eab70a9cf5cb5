/* See input.h. Bytes behind the end of the input are read as 0. */
#include <string.h>

#include "input.h"

#define NONE 255u

uint32_t take_byte(struct input *in)
{
    if (in->left == 0) return 0;
    in->left--;
    return *in->at++;
}

uint32_t take_word(struct input *in)
{
    uint32_t value = 0;
    for (unsigned k = 0; k < 4; k++) value |= take_byte(in) << 8 * k;
    return value;
}

uint32_t spread(uint32_t byte)
{
    return byte * 0x01000001u;
}

uint32_t near_top(uint32_t byte, uint32_t top)
{
    if (byte == 255) return top;
    if (byte == 254) return top - 1;
    return byte == 253 ? top + 1 : byte;
}

static void take_lengths(struct input *in, struct ring *ring)
{
    static const uint16_t records[16] = {7952, 7952, 7952, 7952, 7952, 7952, 7953, 7954, 7955, 7956, 7960, 8016, 7951, 7948, 1, 0};
    static const uint8_t outputs[16] = {20, 20, 20, 20, 20, 20, 21, 23, 24, 40, 20, 20, 19, 4, 3, 0};
    uint32_t lengths = take_byte(in);
    ring->len = records[lengths % 16];
    ring->out_len = outputs[lengths / 16 % 16];
}

static uint32_t take_founder(struct input *in)
{
    uint32_t founder = take_byte(in);
    return founder < 128 ? founder : take_word(in);
}

struct founding take_founding(struct input *in, int named, uint8_t *identifiers)
{
    uint32_t count = take_byte(in) % 66, scheme = take_byte(in);
    struct founding f = {identifiers, 4 * count + scheme % 4, named, named ? take_founder(in) : 0};
    memset(identifiers, 0, IDENTIFIER_ROOM);
    for (uint32_t i = 0; i < count; i++) {
        uint32_t id = scheme == 0 ? take_word(in) : scheme * (i + 1) * 0x9E3779B1u;
        for (uint32_t k = 0; k < 4; k++) identifiers[4 * i + k] = (uint8_t)(id >> 8 * k);
    }
    return f;
}

/* One row. Bit 5 of its byte leaves all fields as the input has them; otherwise they are made to fit the state. */
static void take_row(struct input *in, struct ring *ring, size_t i, uint32_t n)
{
    uint32_t id = spread(take_byte(in)), b = take_byte(in), pred = take_byte(in), succ = take_byte(in), oldpred = take_byte(in);
    uint32_t state = b & 7, lock = b >> 3 & 1, flag = b >> 4 & 1;
    if ((b & 32) == 0) {
        state %= 5;
        flag = flag && state == 2 && lock;
        lock = state == 0 ? 0 : state == 2 ? lock : 1;
        pred = state < 2 ? NONE : pred % n;
        succ = state < 2 ? NONE : succ % n;
        oldpred = flag ? oldpred % n : NONE;
    }
    uint32_t row[7] = {id, state, lock, flag, pred, succ, oldpred};
    for (size_t k = 0; k < 7; k++) put_word(ring, 4 + 7 * i + k, row[k]);
}

/* Some equal messages, from message m on; answers how many. Bit 7 of the first byte leaves the fields as the input has them. */
static uint32_t take_messages(struct input *in, struct ring *ring, uint32_t m, uint32_t n, uint32_t asked)
{
    uint32_t kind = take_byte(in), times = take_byte(in) + 1, from = take_byte(in), to = take_byte(in);
    uint32_t a = take_byte(in), b = take_byte(in), hops = near_top(take_byte(in), 65535);
    if (kind < 128) {
        kind = kind % 14 + 1;
        from %= n;
        to %= n;
        int names_hub = kind == 2 || kind == 4 || kind == 6 || kind == 11;
        a = kind == 1 ? spread(a) : names_hub ? a % n : 0;
        b = kind == 1 && asked != 0 ? b % asked : 0;
        hops = kind == 1 ? hops % 65536 : 0;
    } else {
        kind -= 128;
    }
    uint32_t message[6] = {kind, from, to, a, b, hops};
    uint32_t put = 0;
    for (; put < times && m + put < 256; put++)
        for (size_t k = 0; k < 6; k++) put_word(ring, 452 + 6 * (size_t)(m + put) + k, message[k]);
    return put;
}

static void take_fields(struct input *in, struct ring *ring)
{
    uint32_t hubs = take_byte(in), n = hubs % 65, asked = near_top(take_byte(in), 4294967295u);
    uint32_t runs = take_byte(in) % 32, patches = take_byte(in) % 4, m = 0;
    uint32_t hub_bound = n == 0 ? 1 : n;
    for (uint32_t i = 0; i < n; i++) take_row(in, ring, i, hub_bound);
    for (uint32_t i = 0; i < runs; i++) m += take_messages(in, ring, m, hub_bound, asked);
    put_word(ring, 0, 1);
    put_word(ring, 1, n);
    put_word(ring, 2, m);
    put_word(ring, 3, asked);
    for (uint32_t i = 0; i < patches; i++) {
        uint32_t at = take_byte(in) | take_byte(in) << 8;
        put_word(ring, at % RECORD_WORDS, take_word(in));
    }
}

void take_bytes(struct input *in, uint8_t *bytes, size_t most)
{
    size_t len = take_byte(in);
    len |= (size_t)take_byte(in) << 8;
    if (len > in->left) len = in->left;
    if (len > most) len = most;
    if (len != 0) memcpy(bytes, in->at, len);
    in->at += len;
    in->left -= len;
}

uint32_t take_mode(struct input *in, struct ring *ring)
{
    memset(ring->bytes, 0, RING_RECORD_BYTES);
    memset(ring->bytes + RING_RECORD_BYTES, 0xC3, MOST_BYTES - RING_RECORD_BYTES); /* a 0 that is written there would be seen */
    take_lengths(in, ring);
    return take_byte(in) % 4;
}

void take_record(struct input *in, struct ring *ring, uint32_t mode)
{
    if (mode == 2) take_fields(in, ring);
    else take_bytes(in, ring->bytes, MOST_BYTES);
}

int take_ring(struct input *in, struct ring *ring)
{
    uint8_t identifiers[IDENTIFIER_ROOM];
    uint32_t mode = take_mode(in, ring);
    if (mode < 2) {
        struct founding f = take_founding(in, mode == 1, identifiers);
        return checked_fresh(ring, &f) == RING_OK ? FOUNDED : 0;
    }
    take_record(in, ring, mode);
    return 1;
}

uint32_t hubs_of(const struct ring *ring)
{
    uint32_t n = ring_word(ring->bytes, 1);
    return n == 0 || n > 64 ? 64 : n;
}

uint32_t take_beside(struct input *in, const struct ring *ring)
{
    uint32_t near = take_byte(in);
    return ring_word(ring->bytes, 4 + 7 * (size_t)(near % hubs_of(ring))) + near / 64 - 1;
}

/* The link of a waiting message, chosen by its place, so that most deliveries find one. */
static void choose_link(struct input *in, const struct ring *ring, struct command *c)
{
    uint32_t m = ring_word(ring->bytes, 2), place = take_byte(in);
    size_t at = 452 + 6 * (size_t)(m == 0 || m > 256 ? 0 : place % m);
    c->operation = RING_DELIVER;
    c->x = ring_word(ring->bytes, at + 1);
    c->y = ring_word(ring->bytes, at + 2);
}

unsigned take_commands(struct input *in, const struct ring *ring, struct command *c)
{
    uint32_t n = hubs_of(ring);
    if (in->left == 0) return 0;
    switch (take_byte(in) % 8) {
    case 0: /* any hub is asked for any number */
        *c = (struct command){RING_ASK, take_byte(in), 0};
        c->y = take_word(in);
        return 1;
    case 1:
        *c = (struct command){RING_JOIN, take_byte(in) % n, 0};
        c->y = take_byte(in) % n;
        return 1;
    case 2: *c = (struct command){RING_LEAVE, take_byte(in) % n, 0}; return 1;
    case 3: choose_link(in, ring, c); return 1;
    case 4: /* a number at a hub's identifier or beside it, asked some times */
        *c = (struct command){RING_ASK, take_byte(in) % n, 0};
        c->y = take_beside(in, ring);
        return 1 + take_byte(in);
    case 5: /* any three numbers */
        c->operation = take_word(in);
        c->x = take_word(in);
        c->y = take_word(in);
        return 1;
    case 6: /* any link */
        *c = (struct command){RING_DELIVER, take_byte(in), 0};
        c->y = take_byte(in);
        return 1;
    default: /* the first link that waits, some times over */
        choose_link(in, ring, c);
        return 1 + take_byte(in) % 16;
    }
}
