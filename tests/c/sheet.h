/* What the tests of the calls on an office sheet share: lists as they stand in a sheet and beside it, and calls that try one. */
#ifndef SHEET_H
#define SHEET_H

#include "buffers.h"

/* Some bytes and how many they are; of a literal, all but the zero byte that C puts behind it. */
struct bytes {
    const uint8_t *at;
    size_t len;
};
#define BYTES(literal) {(const uint8_t *)(literal), sizeof(literal) - 1}

/* A sheet, what is read from it, and the sheet that is written of that. */
struct list {
    struct bytes text, names, identifiers, written;
};

/* The list read and written where each output has just the room it needs, and refused by 21 where one of them is a byte short. */
void just_fits(const struct list *list);

/* A text that is refused by this number, although there is no room for what it may say: 21 is asked behind 19 and 20. */
void is_refused(struct bytes text, uint32_t code);

/* Long sheets (long_sheets.c). */
void long_sheets(void);

#endif
