/*
 * A small modem server: frames come in, one a line, are carried out on a record that this program owns, and answers go out. Beside the record it
 * keeps the price cards, which change hub as hubs enter and go. It speaks the frames of `ringrun`, and adds five of its own:
 *
 *   'O' and 8 digits of a number           who holds it: prints the hub in 2 digits
 *   'C' and 8 digits each of machine,      a card is offered: prints quiet, 24 digits 0, or 'EE' and the number of the refusal
 *       revision and price
 *   'P' and 8 digits of a machine          its card: prints the hub that keeps it in 2 digits, revision and price in 8 each; a machine without
 *                                          a card is held by nobody: EE0F
 *   'R' and 8 digits of a hub, then        a driver's route: the numbers are asked at the hub in one call. Prints a line for each, as if it were
 *       8 of each of 1 to 64 numbers       asked alone
 *   'L' and 8 digits of a hub              the list of the depots in service, clockwise from that hub on: prints the roll from it on one line, 2
 *                                          digits a hub. While messages wait the roll is no such list, so it is not called: prints 'W' and
 *                                          how many wait in 4 digits, whatever the hub is
 *
 * A frame of `ringrun` may begin with C too, but has 18 digits: no frame is taken for another.
 */
#include <stdio.h>
#include <string.h>

#include "ring.h"

#define LONGEST_FRAME 521 /* R, a hub and 64 numbers of 8 digits; F0 and 64 identifiers have 514 */
#define OFFER_FRAME 25
#define WAITING 2u     /* the word of the record that says how many messages wait */
#define FIRST_CARD 65u /* the word of the cards where the first one begins; each has four: machine, revision, price, hub */

static uint8_t words[RING_RECORD_BYTES]; /* all 0 until a ring is founded: a command or an offer is then refused by 2 */
static uint8_t cards[RING_CARDS_BYTES];  /* made with the ring, lent to every step on it, and written by nothing else but offers */
static const uint8_t quiet[RING_ANSWER_BYTES];

static int digit(char c)
{
    if (c >= '0' && c <= '9') return c - '0';
    if (c >= 'A' && c <= 'F') return c - 'A' + 10;
    return -1;
}

/* Reads n digits. Answers whether they are digits. */
static int number(const char *text, size_t n, uint32_t *value)
{
    *value = 0;
    for (size_t i = 0; i < n; i++) {
        int d = digit(text[i]);
        if (d < 0) return 0;
        *value = *value << 4 | (uint32_t)d;
    }
    return 1;
}

/* Reads as many numbers of 8 digits as bytes, four a number. Answers whether they are digits. */
static int numbers(const char *text, size_t count, uint8_t *bytes)
{
    for (size_t i = 0; i < count; i++) {
        uint32_t v;
        if (!number(text + 8 * i, 8, &v)) return 0;
        for (size_t k = 0; k < 4; k++) bytes[4 * i + k] = (uint8_t)(v >> 8 * k);
    }
    return 1;
}

static void say_refused(uint32_t refusal)
{
    printf("EE%02X\n", (unsigned)refusal);
}

static void say_answer(const uint8_t *out)
{
    printf("%02X%02X%08X%08X%04X\n", (unsigned)ring_word(out, 0), (unsigned)ring_word(out, 1), (unsigned)ring_word(out, 2),
           (unsigned)ring_word(out, 3), (unsigned)ring_word(out, 4));
}

/*
 * 'F0' and identifiers of 8 digits. The founder is named, hub 0, wherever the smallest identifier stands: a frame has no place for one, and
 * those who send frames rely on the first hub. A server without such users takes ring_fresh_cards. The cards of a ring before it are gone.
 */
static int found_ring(const char *line, size_t length)
{
    uint8_t identifiers[4 * RING_MOST_HUBS];
    size_t count = (length - 2) / 8;
    if ((length - 2) % 8 != 0 || count > RING_MOST_HUBS || !numbers(line + 2, count, identifiers)) return 0;
    uint32_t refusal = ring_fresh_by_cards(words, sizeof words, cards, sizeof cards, identifiers, 4 * count, 0);
    if (refusal != RING_OK) say_refused(refusal);
    else say_answer(quiet);
    return 1;
}

/* 2 digits of operation, 8 of x, 8 of y. */
static int command(const char *line, size_t length)
{
    uint8_t out[RING_ANSWER_BYTES];
    uint32_t operation, x, y;
    if (length != 18 || !number(line, 2, &operation) || !number(line + 2, 8, &x) || !number(line + 10, 8, &y)) return 0;
    uint32_t refusal = ring_step_cards(words, sizeof words, cards, sizeof cards, operation, x, y, out, sizeof out);
    if (refusal != RING_OK) say_refused(refusal);
    else say_answer(out);
    return 1;
}

static int owner(const char *line, size_t length)
{
    uint8_t out[RING_OWNER_BYTES];
    uint32_t v;
    if (length != 9 || !number(line + 1, 8, &v)) return 0;
    uint32_t refusal = ring_owner(words, sizeof words, v, out, sizeof out);
    if (refusal != RING_OK) say_refused(refusal);
    else printf("%02X\n", (unsigned)ring_word(out, 0));
    return 1;
}

/* A question moves no card, so the cards are not lent. A frame has at most as many numbers as a call takes, and there is a place for each. */
static int route(const char *line, size_t length)
{
    uint8_t asked[4 * RING_MOST_QUESTIONS], outcomes[RING_PLACE_BYTES * RING_MOST_QUESTIONS];
    uint32_t hub;
    if (length < 17 || (length - 9) % 8 != 0 || !number(line + 1, 8, &hub)) return 0;
    size_t count = (length - 9) / 8;
    if (!numbers(line + 9, count, asked)) return 0;
    uint32_t refusal = ring_route(words, sizeof words, hub, asked, 4 * count, outcomes, sizeof outcomes);
    if (refusal != RING_OK) {
        say_refused(refusal);
        return 1;
    }
    for (size_t i = 0; i < count; i++) {
        const uint8_t *place = outcomes + RING_PLACE_BYTES * i;
        if (ring_word(place, 0) != RING_OK) say_refused(ring_word(place, 0));
        else say_answer(place + 4);
    }
    return 1;
}

static int list(const char *line, size_t length)
{
    uint8_t hubs[RING_ROLL_BYTES], count[RING_LENGTH_BYTES];
    uint32_t hub, waiting = ring_word(words, WAITING);
    if (length != 9 || !number(line + 1, 8, &hub)) return 0;
    if (waiting != 0) {
        printf("W%04X\n", (unsigned)waiting);
        return 1;
    }
    uint32_t refusal = ring_roll(words, sizeof words, hub, hubs, sizeof hubs, count, sizeof count);
    if (refusal != RING_OK) {
        say_refused(refusal);
        return 1;
    }
    for (uint32_t i = 0; i < ring_word(count, 0); i++) printf("%02X", (unsigned)ring_word(hubs, i));
    putchar('\n');
    return 1;
}

static int offer(const char *line)
{
    uint32_t machine, revision, price;
    if (!number(line + 1, 8, &machine) || !number(line + 9, 8, &revision) || !number(line + 17, 8, &price)) return 0;
    uint32_t refusal = ring_offer(words, sizeof words, cards, sizeof cards, machine, revision, price);
    if (refusal != RING_OK) say_refused(refusal);
    else say_answer(quiet);
    return 1;
}

static int price(const char *line, size_t length)
{
    uint32_t machine, count = ring_word(cards, 0);
    if (length != 9 || !number(line + 1, 8, &machine)) return 0;
    for (uint32_t i = 0; i < count; i++) {
        const uint8_t *card = cards + 4 * (FIRST_CARD + 4 * i);
        if (ring_word(card, 0) != machine) continue;
        printf("%02X%08X%08X\n", (unsigned)ring_word(card, 3), (unsigned)ring_word(card, 1), (unsigned)ring_word(card, 2));
        return 1;
    }
    say_refused(RING_NO_HOLDER);
    return 1;
}

static void answer(const char *line, size_t length)
{
    int readable = 0;
    if (length <= LONGEST_FRAME) {
        if (length >= 2 && memcmp(line, "F0", 2) == 0) readable = found_ring(line, length);
        else if (length >= 1 && line[0] == 'O') readable = owner(line, length);
        else if (length >= 1 && line[0] == 'P') readable = price(line, length);
        else if (length >= 1 && line[0] == 'R') readable = route(line, length);
        else if (length >= 1 && line[0] == 'L') readable = list(line, length);
        else if (length == OFFER_FRAME && line[0] == 'C') readable = offer(line);
        else readable = command(line, length);
    }
    if (!readable) puts("EEFF");
}

int main(void)
{
    char line[LONGEST_FRAME + 1]; /* one place more, so that a longer line is known by its length */
    size_t length = 0;
    int any = 0, c;
    while ((c = getchar()) != EOF) {
        if (c == '\n') {
            answer(line, length);
            if (fflush(stdout) != 0) return 1; /* whoever asked has the answer before the next read */
            length = 0;
            any = 0;
            continue;
        }
        any = 1;
        if (length < sizeof line) line[length++] = (char)c;
    }
    if (any) answer(line, length); /* the last line may lack its LF */
    return fflush(stdout) == 0 ? 0 : 1;
}
