/*
 * Long sheets: very many rows, identifiers of a million digits, a name of a million quotes, and a name of every byte that a name can hold.
 * They are put together here beside the list that is to be read from them.
 */
#include <stdio.h>

#include "sheet.h"

#define ROWS 100000u
#define MILLION 1000000u
#define LONGEST_ROW 48 /* bytes of a row that many_rows writes, at most */

static uint8_t *some(size_t len)
{
    uint8_t *bytes = malloc(len);
    if (bytes == NULL) exit(2);
    return bytes;
}

/* Row i: its number in the name, in each third row between quotes and with a comma; identifiers all over the circle, the last the highest. */
static void many_rows(void)
{
    uint8_t *text = some(ROWS * LONGEST_ROW), *names = some(ROWS * LONGEST_ROW), *identifiers = some(4 * ROWS);
    struct list list = {{text, 0}, {names, 0}, {identifiers, 4 * ROWS}, {text, 0}};
    for (uint32_t i = 0; i < ROWS; i++) {
        uint32_t identifier = 4294967295u - (ROWS - 1 - i) * 42949u;
        char *row = (char *)text + list.text.len, *name = (char *)names + list.names.len;
        const char *in_row = i % 3 == 0 ? "\"\"\"%u\"\", %u\",%u\r\n" : "%u %u,%u\r\n", *alone = i % 3 == 0 ? "\"%u\", %u" : "%u %u";
        list.text.len += (size_t)snprintf(row, LONGEST_ROW, in_row, (unsigned)i, (unsigned)i % 7, (unsigned)identifier);
        list.names.len += (size_t)snprintf(name, LONGEST_ROW, alone, (unsigned)i, (unsigned)i % 7) + 1;
        put(identifiers, i, identifier);
    }
    list.written = list.text;
    just_fits(&list);
    memcpy(text + list.text.len, ",x", 2);
    is_refused((struct bytes){text, list.text.len + 2}, RING_NO_SHEET);
    free(text);
    free(names);
    free(identifiers);
}

/* 'a,', and a million digits: zeros and then these. Answers the text, of MILLION + 2 bytes. */
static uint8_t *million_digits(const char *last)
{
    uint8_t *text = some(MILLION + 2);
    size_t len = strlen(last);
    memset(text, '0', MILLION + 2);
    memcpy(text, "a,", 2);
    memcpy(text + MILLION + 2 - len, last, len);
    return text;
}

static void long_identifiers(void)
{
    uint8_t *highest = million_digits("4294967295"), *above = million_digits("4294967296"), *wrong = million_digits("4294967296x");
    struct list list = {{highest, MILLION + 2}, BYTES("a\0"), BYTES("\377\377\377\377"), BYTES("a,4294967295\r\n")};
    just_fits(&list);
    is_refused((struct bytes){above, MILLION + 2}, RING_IDENTIFIER_TOO_LARGE);
    is_refused((struct bytes){wrong, MILLION + 2}, RING_NO_SHEET);
    memset(above + 2, '9', MILLION);
    is_refused((struct bytes){above, MILLION + 2}, RING_IDENTIFIER_TOO_LARGE);
    free(highest);
    free(above);
    free(wrong);
}

/* A million quotes, twice as many in the sheet. */
static void long_name(void)
{
    uint8_t *text = some(2 * MILLION + 6), *name = some(MILLION + 1);
    struct list list = {{text, 2 * MILLION + 6}, {name, MILLION + 1}, BYTES("\7\0\0\0"), {text, 2 * MILLION + 6}};
    memset(text, '"', 2 * MILLION + 2);
    memcpy(text + 2 * MILLION + 2, ",7\r\n", 4);
    memset(name, '"', MILLION);
    name[MILLION] = 0;
    just_fits(&list);
    is_refused((struct bytes){text + 1, 2 * MILLION + 5}, RING_NO_SHEET);
    free(text);
    free(name);
}

/* A row for each byte but zero, alone in its name: quoted where it is one of four. */
static void every_byte(void)
{
    uint8_t text[255 * 9], names[255 * 2], identifiers[255 * 4];
    struct list list = {{text, 0}, {names, sizeof names}, {identifiers, sizeof identifiers}, {text, 0}};
    size_t at = 0;
    for (uint32_t byte = 1; byte <= 255; byte++) {
        int quoted = byte == 34 || byte == 44 || byte == 13 || byte == 10;
        if (quoted) text[at++] = 34;
        text[at++] = (uint8_t)byte;
        if (byte == 34) text[at++] = 34;
        if (quoted) text[at++] = 34;
        memcpy(text + at, ",8\r\n", 4);
        at += 4;
        names[2 * byte - 2] = (uint8_t)byte;
        names[2 * byte - 1] = 0;
        put(identifiers, byte - 1, 8);
    }
    list.text.len = list.written.len = at;
    just_fits(&list);
}

void long_sheets(void)
{
    every_byte();
    many_rows();
    long_identifiers();
    long_name();
}
