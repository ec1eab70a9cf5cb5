/*
 * A fuzzer's input, read as a record and then a list of commands, so that changing a few bytes leads to other deep states:
 *
 *   lengths   1 byte: which lengths of record and output are lent (0: exact ones)
 *   mode      1 byte, modulo 4:
 *     0       a ring from ring_fresh: count of identifiers, scheme, and with scheme 0 the identifiers, 4 bytes each
 *     1       a ring from ring_fresh_by: count and scheme, then the founder, 1 byte, or from 128 on any number in the 4 bytes that follow
 *             it, then the identifiers
 *     2       a record from small fields, most of which fit each other; then single words written over it
 *     3       a record as it is: 2 bytes of length, then so many bytes; the rest of the record is 0
 *   commands  to the end: 1 byte of form, then what that form has (input.c)
 */
#ifndef INPUT_H
#define INPUT_H

#include "calls.h"

struct input {
    const uint8_t *at;
    size_t left;
};

/* The next byte, or the next four as a number, lowest first; 0 behind the end. */
uint32_t take_byte(struct input *in);
uint32_t take_word(struct input *in);

/* A byte that stands for a number of the ring: spread over all 32 bits, and different for different bytes. */
uint32_t spread(uint32_t byte);

/* A byte as a count whose highest values matter: 255 stands for `top`, 254 for the one below it, 253 for the one above. */
uint32_t near_top(uint32_t byte, uint32_t top);

/* Lengths and mode; the record is then all 0, with marks behind it. */
uint32_t take_mode(struct input *in, struct ring *ring);

/* What modes 0 and 1 found, with room for its identifiers; a record of mode 2 or 3. */
#define IDENTIFIER_ROOM (4 * 66 + 3)
struct founding take_founding(struct input *in, int named, uint8_t *identifiers);
void take_record(struct input *in, struct ring *ring, uint32_t mode);

/* So many bytes as they are, as the 2 bytes before them say, but at most `most`. */
void take_bytes(struct input *in, uint8_t *bytes, size_t most);

/* All of it. Answers whether there is a record to go on with, not after a fresh call that was refused; and FOUNDED after one that was not. */
#define FOUNDED 2
int take_ring(struct input *in, struct ring *ring);

/* How many hubs there are; 64 where the record says what cannot be. And a number at one's identifier or beside it. */
uint32_t hubs_of(const struct ring *ring);
uint32_t take_beside(struct input *in, const struct ring *ring);

/* Takes the next commands, at most 256 that are alike; answers how often *c is to be given, 0 at the end of the input. */
unsigned take_commands(struct input *in, const struct ring *ring, struct command *c);

#endif
