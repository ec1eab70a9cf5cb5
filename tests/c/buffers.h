/*
 * What the tests of the C calls share: what was expected is counted, and each buffer is lent at its very own size, between two rows of guard
 * bytes where there are any.
 */
#ifndef BUFFERS_H
#define BUFFERS_H

#include <stddef.h>
#include <stdint.h>
#include <stdlib.h>
#include <string.h>

#include "ring.h"

extern unsigned passed, failed;
extern size_t guard; /* guard bytes on each side */

#define COUNT(list) (sizeof(list) / sizeof *(list))

/* No hub: what a row has where it points to none. */
#define NONE 255u

void expect(int holds, const char *what);

/* Puts word i of a buffer of words: what ring_word reads there. */
void put(uint8_t *bytes, size_t i, uint32_t value);

/* A record of hubs with these rows and no message. */
void put_rows(uint8_t *record, const uint32_t (*rows)[7], uint32_t n);

/* And one of n hubs, all inside, in a ring in the order of their numbers. */
void put_circle(uint8_t *record, uint32_t n);

struct buffer {
    uint8_t *all, *bytes;
    size_t len;
};

struct buffer lend(const uint8_t *content, size_t content_len, size_t len);

/* Whether the bytes from `from` on, and the guards, still hold the mark. */
int untouched(const struct buffer *b, size_t from);

/* Whether nothing at all was written: the content it was lent with stands, and so do the marks behind it and the guards. */
int unchanged(const struct buffer *b, const uint8_t *content, size_t content_len);

/* Lengths of a record around the least and around whole words. */
#define LENGTHS 12
extern const size_t lengths[LENGTHS];

/* The tests of the calls that found a ring (founding.c), of ranges (ranges.c), of a route's questions (routes.c), of rolls (rolls.c), of the calls
 * on an office sheet (sheet.c), and of those with price cards (cards.c). */
void foundings(void);
void ranges(void);
void routes(void);
void rolls(void);
void sheets(void);
void price_cards(void);

#endif
