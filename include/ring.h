/*
 * ring.h - the depot hub ring, for C and C++.
 *
 * A ring record is 1,988 words of 32 bits. Here it travels as bytes, four a word, lowest byte first, on every machine:
 * RING_RECORD_BYTES bytes in memory of the caller's. Longer memory may be lent; what lies behind the record, and up to three bytes left
 * over at the end, are neither read nor written.
 *
 * Each call returns RING_OK (0), or the number of the first question that was answered no. A refused call has written nothing.
 *
 * What the caller must ensure, and a proof cannot: each pointer is valid for the length that goes with it, for reading, and for writing
 * where it is not const; two buffers of one call do not overlap; and nothing else reads or writes them while the call runs. A pointer must
 * not be NULL, even where its length is 0: give any valid address. No pointer is kept after the call. The calls allocate nothing, hold no
 * state of their own, and may run on many threads at once, each on its own buffers.
 *
 * A call needs less than 10 KiB of stack, ring_route less than 12 KiB, one with cards less than 40 KiB. Link with libring_c.a
 * (`rt lib` in crates/ring_c writes it, x86-64), which needs memcpy, memmove and memset and nothing else.
 */
#ifndef RING_H
#define RING_H

#include <stddef.h>
#include <stdint.h>

#ifdef __cplusplus
extern "C" {
#endif

/* Sizes, in bytes. */
#define RING_RECORD_BYTES 7952u /* a ring record: the least that `words` must have */
#define RING_ANSWER_BYTES 20u   /* a step's answer: the least that `out` must have */
#define RING_OWNER_BYTES 4u     /* the owner query's answer: the least that `out` must have */
#define RING_LENGTH_BYTES 4u    /* how many hubs a roll has: the least that `length` must have */
#define RING_ROLL_BYTES 256u    /* the roll of RING_MOST_HUBS hubs: no ring needs more for `roll` */
#define RING_COUNTS_BYTES 16u   /* the counts of a sheet read or written: the least that `counts` must have */
#define RING_CARDS_BYTES 8452u  /* a card slice: the least that `cards` must have */
#define RING_PLACE_BYTES 24u    /* the outcome of one question of a route: `outcomes` must have so many for each number */

/* The most hubs: the most identifiers, of four bytes each, that found a ring. */
#define RING_MOST_HUBS 64u

/* The most cards that a card slice keeps. */
#define RING_MOST_CARDS 512u

/* The most numbers that a route asks in one call. */
#define RING_MOST_QUESTIONS 64u

/* What a call returns. The numbers are those of the ring's documents. */
enum ring_code {
    RING_OK = 0,
    RING_RECORD_SHORT = 1,    /* `words` has fewer than RING_RECORD_BYTES bytes, or `cards` fewer than RING_CARDS_BYTES */
    RING_NOT_WELL_FORMED = 2, /* the record is damaged, or the cards beside it: calls of this header alone, as it asks for them, do not lead here */
    RING_NO_OPERATION = 3,    /* the operation is not one of enum ring_operation */
    RING_NO_HUB = 4,          /* a hub number is not below the number of hubs */
    RING_NOT_IN_RING = 5,     /* the hub is outside or still joining */
    RING_NOT_OUTSIDE = 6,     /* join: the hub is not outside */
    RING_LOCKED = 7,          /* leave: the hub is locked */
    RING_LAST_HUB = 8,        /* leave: the hub is its own successor */
    RING_NO_MESSAGE = 9,      /* deliver: no message waits between these hubs */
    RING_NOT_EXPECTED = 10,   /* deliver: the receiver, or the joining hub, is not as the message needs */
    RING_MESSAGES_FULL = 11,  /* 256 messages are waiting */
    RING_TICKETS_USED_UP = 12, /* ask: all tickets were given */
    RING_IDENTIFIER_COUNT = 13, /* fresh: not 1 to 64 identifiers */
    RING_IDENTIFIER_TWICE = 14, /* fresh: two identifiers are equal */
    RING_NO_HOLDER = 15,      /* owner: no hub holds the number */
    RING_NO_WAY_ROUND = 16,   /* roll: following the successors does not come back to the hub, or comes to a hub that has none */
    RING_OUTPUT_SHORT = 17,   /* `out`, `counts` or `length` is too short: asked before anything else; or `roll` is: asked last */
    RING_NO_FOUNDER = 18,     /* fresh: the founder named is not below the number of hubs */
    RING_NO_SHEET = 19,       /* sheet: the text is none, or the names to be written are not one for each identifier */
    RING_IDENTIFIER_TOO_LARGE = 20, /* sheet: an identifier is above 4294967295 */
    RING_ROOM_SHORT = 21,     /* sheet: an output is too short for what is to be written */
    RING_REVISION_LOWER = 22, /* offer: the machine's card has a higher revision */
    RING_PRICE_DIFFERS = 23,  /* offer: the machine's card has this revision, and another price */
    RING_CARDS_FULL = 24,     /* offer: a new machine, and RING_MOST_CARDS cards are kept */
    RING_ROUTE_LONG = 25,     /* route: more than RING_MOST_QUESTIONS numbers */
    RING_PLACES_SHORT = 26    /* route: fewer places for outcomes than numbers */
};

/* A hub's state: the second of the seven words of its row, which begins at byte 16 + 28 times the hub's number of the record. */
enum ring_state {
    RING_OUTSIDE = 0,
    RING_JOINING = 1,
    RING_INSIDE = 2,
    RING_WANTING_TO_LEAVE = 3,
    RING_LEAVING = 4
};

/* A step's operation, and what x and y are. */
enum ring_operation {
    RING_ASK = 0,    /* hub x is asked for the number y */
    RING_JOIN = 1,   /* hub x joins through hub y */
    RING_LEAVE = 2,  /* hub x leaves; y is not read */
    RING_DELIVER = 3 /* the oldest message from hub x to hub y is delivered */
};

/* The kind of a step's answer, its first word. The other words are hub, number, ticket and hops; a word that a kind does not have is 0. */
enum ring_answer {
    RING_QUIET = 0,            /* nothing to tell */
    RING_FOUND = 1,            /* hub, number, ticket, and hops: the links that the question used, 65535 for so many or more */
    RING_ENTERED = 2,          /* the hub that now takes part */
    RING_GONE = 3,             /* the hub that no longer does */
    RING_JOIN_TURNED_AWAY = 4, /* the hub, outside again: it may try later */
    RING_LEAVE_TURNED_AWAY = 5, /* the hub, still inside: it may try later */
    RING_JOINED = 6,           /* the newcomer, unlocked: its join is complete */
    RING_LEFT = 7              /* the hub that is outside now */
};

/*
 * ring_fresh - found a ring: the hub with the smallest identifier inside, wherever it stands in the list, the others outside, no message.
 *
 *   words, words_len              the record, written over; length in bytes
 *   identifiers, identifiers_len  the hubs' identifiers, four bytes each, lowest first; length in bytes
 *
 * Returns RING_OK, RING_RECORD_SHORT, RING_IDENTIFIER_COUNT or RING_IDENTIFIER_TWICE.
 */
uint32_t ring_fresh(uint8_t *words, size_t words_len, const uint8_t *identifiers, size_t identifiers_len);

/*
 * ring_fresh_by - the same with the founder named: that hub inside, the others outside. For a caller that knows which hub is plugged in,
 * or relies on the first one: founder 0.
 *
 *   founder  a hub number; any number may be given
 *
 * Returns what ring_fresh does, or RING_NO_FOUNDER, which is asked last.
 */
uint32_t ring_fresh_by(uint8_t *words, size_t words_len, const uint8_t *identifiers, size_t identifiers_len, uint32_t founder);

/*
 * ring_step - one command on the record.
 *
 *   words, words_len  the record, changed by an accepted step; length in bytes
 *   operation, x, y   the command (enum ring_operation); any numbers may be given
 *   out, out_len      gets the answer's five words in RING_ANSWER_BYTES bytes; bytes behind them stay as they are
 *
 * Returns RING_OK, RING_OUTPUT_SHORT, or a refusal from 1 to 12.
 */
uint32_t ring_step(uint8_t *words, size_t words_len, uint32_t operation, uint32_t x, uint32_t y, uint8_t *out, size_t out_len);

/*
 * ring_route - the questions of a driver's route in one call: each number is asked at the hub, as ring_step with RING_ASK asks it, in the order of
 * the list. Outcomes and record are those of asking one by one; the record is tested once, so that many questions cost little more than one.
 *
 *   words, words_len        the record; length in bytes
 *   hub                     the hub that is asked: where it is none, or outside, each outcome says so
 *   numbers, numbers_len    at most RING_MOST_QUESTIONS numbers, four bytes each, lowest first; length in bytes
 *   outcomes, outcomes_len  gets RING_PLACE_BYTES bytes for each number: a word for the refusal, RING_OK for none (or 4, 5, 11 or 12), and
 *                           the answer's five words, all 0 on a refusal. What lies behind them stays as it is
 *
 * A question that is refused does not end the call: those behind it are asked. Price cards need not be lent, since a question moves none.
 *
 * Returns RING_OK, RING_RECORD_SHORT, RING_NOT_WELL_FORMED, RING_ROUTE_LONG or RING_PLACES_SHORT, in this order.
 */
uint32_t ring_route(uint8_t *words, size_t words_len, uint32_t hub, const uint8_t *numbers, size_t numbers_len, uint8_t *outcomes,
                    size_t outcomes_len);

/*
 * ring_owner - the hub that holds a machine number; the lowest hub number if several do.
 *
 *   words, words_len  the record, only read; length in bytes
 *   number            any number
 *   out, out_len      gets the hub as one word in RING_OWNER_BYTES bytes; bytes behind it stay as they are
 *
 * Returns RING_OK, RING_OUTPUT_SHORT, RING_RECORD_SHORT, RING_NOT_WELL_FORMED or RING_NO_HOLDER.
 */
uint32_t ring_owner(const uint8_t *words, size_t words_len, uint32_t number, uint8_t *out, size_t out_len);

/*
 * ring_roll - the roll from a hub on: that hub, its successor, the successor's successor, until the hub itself comes again.
 *
 *   words, words_len    the record, only read; length in bytes
 *   hub                 the hub that the roll begins with; any number may be given
 *   roll, roll_len      gets the hubs, a word each; RING_ROLL_BYTES bytes are always enough. Bytes behind the roll stay as they are
 *   length, length_len  gets how many hubs the roll has, as one word in RING_LENGTH_BYTES bytes; bytes behind it stay as they are
 *
 * Where the record comes from a fresh call and steps, and no message waits, the roll says which depots are in service: all of them, each once, going
 * clockwise from the hub on. How many messages wait is ring_word(words, 2). While any waits, the roll is no such list: a depot that enters or goes may be
 * missing or still be in it, and from such a depot there may be no way round.
 *
 * Returns RING_OK, RING_OUTPUT_SHORT (for length), RING_RECORD_SHORT, RING_NOT_WELL_FORMED, RING_NO_HUB, RING_NOT_IN_RING, RING_NO_WAY_ROUND or
 * RING_OUTPUT_SHORT (for roll), in this order.
 */
uint32_t ring_roll(const uint8_t *words, size_t words_len, uint32_t hub, uint8_t *roll, size_t roll_len, uint8_t *length, size_t length_len);

/*
 * Price cards. A card slice is 2,113 words, as bytes like the record: the number of cards; for each of 64 hubs 1 from its RING_ENTERED (or its
 * founding) to its RING_GONE, and 0 otherwise; and four words a card, machine, revision, price in cents, and the hub that keeps it. It is made
 * together with its ring, by one of the next two calls. From then on lend it to every step on that record (ring_step_cards, never ring_step), and
 * let steps and offers alone write it: then each card is always with the hub that owns its machine's number.
 *
 * Of both slices the record is looked at first: too short, the record, then the cards (RING_RECORD_SHORT); damaged, the record, then the cards
 * beside it (RING_NOT_WELL_FORMED). A refused call has written to neither.
 */

/*
 * ring_fresh_cards - as ring_fresh, and with the ring its card slice: no card yet, and 1 for the founder alone.
 *
 *   cards, cards_len  the card slice, written over; length in bytes
 *
 * Returns RING_OK, RING_RECORD_SHORT (for words, then for cards), RING_IDENTIFIER_COUNT or RING_IDENTIFIER_TWICE.
 */
uint32_t ring_fresh_cards(uint8_t *words, size_t words_len, uint8_t *cards, size_t cards_len, const uint8_t *identifiers,
                          size_t identifiers_len);

/* ring_fresh_by_cards - the same with the founder named, as ring_fresh_by has it: RING_NO_FOUNDER is asked last. */
uint32_t ring_fresh_by_cards(uint8_t *words, size_t words_len, uint8_t *cards, size_t cards_len, const uint8_t *identifiers,
                             size_t identifiers_len, uint32_t founder);

/*
 * ring_step_cards - as ring_step; where a hub has entered or gone, its cards change hub in the same call.
 *
 *   cards, cards_len  the card slice that was made with this record, changed by an answer RING_ENTERED or RING_GONE; length in bytes
 *
 * Returns RING_OK, RING_OUTPUT_SHORT, or a refusal from 1 to 12. A step that would leave no hub with 1 in the cards is RING_NOT_WELL_FORMED,
 * asked last; it does not happen with the slice that was made with the record and lent to every step on it.
 */
uint32_t ring_step_cards(uint8_t *words, size_t words_len, uint8_t *cards, size_t cards_len, uint32_t operation, uint32_t x, uint32_t y,
                         uint8_t *out, size_t out_len);

/*
 * ring_offer - a card for a machine. It takes the place of the machine's card if its revision is higher, goes last if the machine has none, and
 * changes nothing if the machine has this very card. The hub that keeps it is filled in.
 *
 *   words, words_len          the record, only read; length in bytes
 *   cards, cards_len          the card slice that was made with it; length in bytes
 *   machine, revision, price  any numbers
 *
 * Returns RING_OK, RING_RECORD_SHORT, RING_NOT_WELL_FORMED, RING_REVISION_LOWER, RING_PRICE_DIFFERS or RING_CARDS_FULL.
 */
uint32_t ring_offer(const uint8_t *words, size_t words_len, uint8_t *cards, size_t cards_len, uint32_t machine, uint32_t revision,
                    uint32_t price);

/*
 * ring_sheet_read - the hubs of an office sheet: RFC 4180, a name and an identifier in decimal in each row, each quoted or not, no header.
 *
 *   text, text_len                the sheet, only read; any bytes, any length
 *   identifiers, identifiers_len  gets the identifiers, four bytes each, lowest first, as ring_fresh takes them; length in bytes
 *   names, names_len              gets the names without their quotes, one behind the other, each with a zero byte behind it
 *   counts, counts_len            gets two counts in RING_COUNTS_BYTES bytes, eight bytes each, lowest first: rows, and bytes of names
 *
 * What lies behind the bytes written stays as it is. Names of text_len bytes and identifiers of text_len + 2 are always long enough.
 *
 * Returns RING_OK, RING_OUTPUT_SHORT (for counts), RING_NO_SHEET, RING_IDENTIFIER_TOO_LARGE or RING_ROOM_SHORT (for identifiers or names), in
 * this order. A ring takes RING_MOST_HUBS hubs at most, and no identifier twice: ring_fresh says so, not this call.
 */
uint32_t ring_sheet_read(const uint8_t *text, size_t text_len, uint8_t *identifiers, size_t identifiers_len, uint8_t *names, size_t names_len,
                         uint8_t *counts, size_t counts_len);

/*
 * ring_sheet_write - the way back: the sheet of names and identifiers. Names are quoted where they must be, and each row ends in CR LF.
 *
 *   names, names_len              the names, each with a zero byte behind it: as many as there are identifiers, and nothing else
 *   identifiers, identifiers_len  the identifiers, four bytes each, lowest first; length in bytes
 *   text, text_len                gets the sheet; what lies behind it stays as it is
 *   counts, counts_len            gets rows, and bytes of text, as above
 *
 * Returns RING_OK, RING_OUTPUT_SHORT (for counts), RING_NO_SHEET (for names) or RING_ROOM_SHORT (for text), in this order.
 */
uint32_t ring_sheet_write(const uint8_t *names, size_t names_len, const uint8_t *identifiers, size_t identifiers_len, uint8_t *text,
                          size_t text_len, uint8_t *counts, size_t counts_len);

/* ring_word - word i of a buffer of words: what an answer says, or any word of the record. */
static inline uint32_t ring_word(const uint8_t *bytes, size_t i)
{
    const uint8_t *b = bytes + 4 * i;
    return (uint32_t)b[0] | (uint32_t)b[1] << 8 | (uint32_t)b[2] << 16 | (uint32_t)b[3] << 24;
}

/*
 * Example: a ring of hubs 100 and 200. Hub 0 (identifier 100) has the smallest identifier, so it founds, and is asked who owns 150.
 *
 *   static const uint8_t identifiers[] = {100, 0, 0, 0, 200, 0, 0, 0};
 *   static uint8_t ring[RING_RECORD_BYTES];
 *   uint8_t answer[RING_ANSWER_BYTES];
 *   uint32_t code = ring_fresh(ring, sizeof ring, identifiers, sizeof identifiers);
 *   if (code == RING_OK) {
 *       code = ring_step(ring, sizeof ring, RING_ASK, 0, 150, answer, sizeof answer);
 *   }
 *   if (code == RING_OK && ring_word(answer, 0) == RING_FOUND) {
 *       printf("hub %u\n", (unsigned)ring_word(answer, 1)); // hub 0
 *   }
 */

#ifdef __cplusplus
}
#endif

#endif
