/*
 * The calls under test, for the fuzzers. Each call is made on the engine that carries the fuzzer's counters and AddressSanitizer (traced_),
 * twice on the archive as it is shipped (ring_), and on the independent model (model_); all must do the same to the same bytes, and what
 * they do must be something that the documents have. Anything else is a finding: it is printed and the program aborts.
 */
#ifndef CALLS_H
#define CALLS_H

#include <stddef.h>
#include <stdint.h>

#include "ring.h"

uint32_t traced_fresh(uint8_t *words, size_t words_len, const uint8_t *identifiers, size_t identifiers_len);
uint32_t traced_fresh_by(uint8_t *words, size_t words_len, const uint8_t *identifiers, size_t identifiers_len, uint32_t founder);
uint32_t traced_step(uint8_t *words, size_t words_len, uint32_t operation, uint32_t x, uint32_t y, uint8_t *out, size_t out_len);
uint32_t traced_route(uint8_t *words, size_t words_len, uint32_t hub, const uint8_t *numbers, size_t numbers_len, uint8_t *outcomes,
                      size_t outcomes_len);
uint32_t traced_owner(const uint8_t *words, size_t words_len, uint32_t number, uint8_t *out, size_t out_len);
uint32_t traced_roll(const uint8_t *words, size_t words_len, uint32_t hub, uint8_t *roll, size_t roll_len, uint8_t *length, size_t length_len);
uint32_t model_fresh(uint8_t *words, size_t words_len, const uint8_t *identifiers, size_t identifiers_len);
uint32_t model_fresh_by(uint8_t *words, size_t words_len, const uint8_t *identifiers, size_t identifiers_len, uint32_t founder);
uint32_t model_step(uint8_t *words, size_t words_len, uint32_t operation, uint32_t x, uint32_t y, uint8_t *out, size_t out_len);
uint32_t model_route(uint8_t *words, size_t words_len, uint32_t hub, const uint8_t *numbers, size_t numbers_len, uint8_t *outcomes,
                     size_t outcomes_len);
uint32_t model_owner(const uint8_t *words, size_t words_len, uint32_t number, uint8_t *out, size_t out_len);
uint32_t model_roll(const uint8_t *words, size_t words_len, uint32_t hub, uint8_t *roll, size_t roll_len, uint8_t *length, size_t length_len);
uint32_t traced_sheet_read(const uint8_t *text, size_t text_len, uint8_t *identifiers, size_t identifiers_len, uint8_t *names, size_t names_len,
                           uint8_t *counts, size_t counts_len);
uint32_t traced_sheet_write(const uint8_t *names, size_t names_len, const uint8_t *identifiers, size_t identifiers_len, uint8_t *text,
                            size_t text_len, uint8_t *counts, size_t counts_len);
uint32_t model_sheet_read(const uint8_t *text, size_t text_len, uint8_t *identifiers, size_t identifiers_len, uint8_t *names, size_t names_len,
                          uint8_t *counts, size_t counts_len);
uint32_t model_sheet_write(const uint8_t *names, size_t names_len, const uint8_t *identifiers, size_t identifiers_len, uint8_t *text,
                           size_t text_len, uint8_t *counts, size_t counts_len);

uint32_t traced_fresh_cards(uint8_t *words, size_t words_len, uint8_t *cards, size_t cards_len, const uint8_t *identifiers, size_t identifiers_len);
uint32_t traced_fresh_by_cards(uint8_t *words, size_t words_len, uint8_t *cards, size_t cards_len, const uint8_t *identifiers,
                               size_t identifiers_len, uint32_t founder);
uint32_t traced_step_cards(uint8_t *words, size_t words_len, uint8_t *cards, size_t cards_len, uint32_t operation, uint32_t x, uint32_t y,
                           uint8_t *out, size_t out_len);
uint32_t traced_offer(const uint8_t *words, size_t words_len, uint8_t *cards, size_t cards_len, uint32_t machine, uint32_t revision, uint32_t price);
uint32_t model_fresh_cards(uint8_t *words, size_t words_len, uint8_t *cards, size_t cards_len, const uint8_t *identifiers, size_t identifiers_len);
uint32_t model_fresh_by_cards(uint8_t *words, size_t words_len, uint8_t *cards, size_t cards_len, const uint8_t *identifiers,
                              size_t identifiers_len, uint32_t founder);
uint32_t model_step_cards(uint8_t *words, size_t words_len, uint8_t *cards, size_t cards_len, uint32_t operation, uint32_t x, uint32_t y,
                          uint8_t *out, size_t out_len);
uint32_t model_offer(const uint8_t *words, size_t words_len, uint8_t *cards, size_t cards_len, uint32_t machine, uint32_t revision, uint32_t price);

#define MOST_BYTES (RING_RECORD_BYTES + 64u)
#define RECORD_WORDS (RING_RECORD_BYTES / 4u)

/* The record as a list of calls goes on, and the lengths that are lent. */
struct ring {
    uint8_t bytes[MOST_BYTES];
    size_t len, out_len;
};

/* What a ring is founded from. Where the founder is not named, the hub with the smallest identifier founds. */
struct founding {
    const uint8_t *identifiers;
    size_t len;
    int named;
    uint32_t founder;
};

struct command {
    uint32_t operation, x, y;
};

void must(int holds, const char *what);
void put_word(struct ring *ring, size_t i, uint32_t value);
uint32_t checked_fresh(struct ring *ring, const struct founding *f);
uint32_t checked_step(struct ring *ring, struct command c);
uint32_t checked_owner(const struct ring *ring, uint32_t number);

#endif
