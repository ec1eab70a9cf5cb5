/* Buffers as they are lent to a call, records that are put together for one, and the count of what was expected. See buffers.h. */
#include <stdio.h>

#include "buffers.h"

#define MARK 0xA5

unsigned passed, failed;
size_t guard;
const size_t lengths[LENGTHS] = {0, 1, 3, 4, 7948, 7951, 7952, 7953, 7954, 7955, 7956, 9000};

void expect(int holds, const char *what)
{
    if (holds) {
        passed++;
        return;
    }
    failed++;
    printf("FAILED: %s\n", what);
}

void put(uint8_t *bytes, size_t i, uint32_t value)
{
    for (size_t k = 0; k < 4; k++) bytes[4 * i + k] = (uint8_t)(value >> 8 * k);
}

void put_rows(uint8_t *record, const uint32_t (*rows)[7], uint32_t n)
{
    memset(record, 0, RING_RECORD_BYTES);
    put(record, 0, 1);
    put(record, 1, n);
    for (size_t k = 0; k < 7 * (size_t)n; k++) put(record, 4 + k, rows[k / 7][k % 7]);
}

void put_circle(uint8_t *record, uint32_t n)
{
    uint32_t rows[RING_MOST_HUBS][7];
    for (uint32_t hub = 0; hub < n; hub++)
        memcpy(rows[hub], (const uint32_t[]){hub * 0x04000000u, RING_INSIDE, 0, 0, (hub + n - 1) % n, (hub + 1) % n, NONE}, sizeof rows[hub]);
    put_rows(record, (const uint32_t(*)[7])rows, n);
}

struct buffer lend(const uint8_t *content, size_t content_len, size_t len)
{
    struct buffer b = {malloc(guard + len + guard), NULL, len};
    if (b.all == NULL) exit(2);
    memset(b.all, MARK, guard + len + guard);
    b.bytes = b.all + guard;
    if (content_len != 0) memcpy(b.bytes, content, content_len < len ? content_len : len);
    return b;
}

int untouched(const struct buffer *b, size_t from)
{
    for (size_t i = 0; i < guard; i++)
        if (b->all[i] != MARK || b->bytes[b->len + i] != MARK) return 0;
    for (size_t i = from; i < b->len; i++)
        if (b->bytes[i] != MARK) return 0;
    return 1;
}

int unchanged(const struct buffer *b, const uint8_t *content, size_t content_len)
{
    size_t same = content_len < b->len ? content_len : b->len;
    return untouched(b, same) && (same == 0 || memcmp(b->bytes, content, same) == 0);
}
