/*
 * Fuzzes ringrun in process: its main, read, write and errno have other names here (tests/fuzz/run), so that the input comes from memory, in
 * pieces of any size, and the output goes there, through calls that may be interrupted, take little, or fail. It is run as shipped and with
 * the fuzzer's counters and AddressSanitizer; what it prints is held to document 01's forms, line for line, and to the model; and where
 * something fails, what it says of that on standard error.
 *
 *   pieces   1 byte: how many bytes a read hands over (0: all)
 *   writes   1 byte: how many bytes a write takes (0: all; from 192 on, up to 31 writes take all, from 224 on one byte, and then each fails)
 *   faults   1 byte: from 128 on, up to 127 reads hand over a piece and then each fails; below it, each so manieth call is interrupted, or
 *            would have to wait, before it is made (0: none)
 *   text     1 byte: even, the rest is the text; odd, the text is written from a list of foundings, commands and pieces of text
 */
#include <errno.h>
#include <stdio.h>
#include <string.h>
#include <sys/types.h>

#include "input.h"

#define MOST_TEXT 131072 /* two reads of ringrun's, and more answers than its output holds at a time */
#define MOST_OUTPUT (25 * (MOST_TEXT + 1))

int traced_ringrun(void);
int shipped_ringrun(void);
size_t model_ringrun(const uint8_t *input, size_t input_len, uint8_t *out, size_t out_len);
ssize_t fuzz_read(int fd, void *buffer, size_t len);
ssize_t fuzz_write(int fd, const void *bytes, size_t len);
int rattle_errno(void);
int LLVMFuzzerTestOneInput(const uint8_t *data, size_t size);

static uint8_t text[MOST_TEXT], output[MOST_OUTPUT], expected[MOST_OUTPUT];
static char said[512]; /* on standard error */
static size_t text_len, text_at, output_len, said_len, lines_read, lines_written;
static unsigned piece, portion, faults, good_writes, good_reads, calls;
static int error;

int rattle_errno(void)
{
    return error;
}

/* Whether this call is interrupted, or would have to wait: it must be made again. By turns, so that each comes. */
static int interrupted(void)
{
    calls++;
    if (faults == 0 || faults >= 128 || calls % (faults + 1) != 0) return 0;
    error = calls / (faults + 1) % 2 == 0 ? EINTR : EAGAIN;
    return 1;
}

static size_t lines_in(const uint8_t *bytes, size_t len)
{
    size_t lines = 0;
    for (size_t i = 0; i < len; i++) lines += bytes[i] == '\n';
    return lines;
}

/* A read hands over the next piece. By then every line that has ended must be answered. */
ssize_t fuzz_read(int fd, void *buffer, size_t len)
{
    size_t n = text_len - text_at;
    must(fd == 0, "ringrun: a read from somewhere else");
    if (interrupted()) return -1;
    if (faults >= 128) {
        error = EIO;
        if (good_reads == 0) return -1;
        good_reads--;
    }
    if (portion < 192) must(lines_read == lines_written, "ringrun: a line not answered before the next read");
    if (piece != 0 && n > piece) n = piece;
    if (n > len) n = len;
    memcpy(buffer, text + text_at, n);
    lines_read += lines_in(text + text_at, n);
    text_at += n;
    return (ssize_t)n;
}

ssize_t fuzz_write(int fd, const void *bytes, size_t len)
{
    if (fd == 2) {
        must(len < sizeof said - said_len, "ringrun: too much on standard error");
        memcpy(said + said_len, bytes, len);
        said_len += len;
        return (ssize_t)len;
    }
    must(fd == 1, "ringrun: a write to somewhere else");
    if (interrupted()) return -1;
    if (portion >= 192) {
        error = ENOSPC;
        if (good_writes == 0) return portion % 2 == 0 ? -1 : 0;
        good_writes--;
        if (portion >= 224 && len > 1) len = 1;
    } else if (portion != 0 && len > portion) {
        len = portion;
    }
    must(len <= MOST_OUTPUT - output_len, "ringrun: more output than any input has");
    memcpy(output + output_len, bytes, len);
    lines_written += lines_in(bytes, len);
    output_len += len;
    return (ssize_t)len;
}

static void say(const void *bytes, size_t len)
{
    if (len > MOST_TEXT - text_len) len = MOST_TEXT - text_len;
    memcpy(text + text_len, bytes, len);
    text_len += len;
}

/* A founding that is read from the input like that of the other fuzzers, as a frame. A frame founds by hub 0: so does the ring beside it. */
static void say_founding(struct input *in, struct ring *ring)
{
    char frame[9];
    uint8_t identifiers[4 * RING_MOST_HUBS];
    size_t i = 0;
    if (!take_ring(in, ring)) return;
    say("F0", 2);
    for (; i < ring_word(ring->bytes, 1) && i < RING_MOST_HUBS; i++) {
        const uint8_t *row = ring->bytes + 4 * (4 + 7 * i);
        snprintf(frame, sizeof frame, "%08X", (unsigned)ring_word(row, 0));
        say(frame, 8);
        memcpy(identifiers + 4 * i, row, 4);
    }
    say("\n", 1);
    ring_fresh_by(ring->bytes, ring->len, identifiers, 4 * i, 0);
}

/* Commands as frames. A ring beside them takes the same steps, so that links with a waiting message can be chosen. */
static void say_commands(struct input *in, struct ring *ring)
{
    char frame[20];
    uint8_t answer[RING_ANSWER_BYTES];
    struct command c;
    for (unsigned times = take_commands(in, ring, &c); times != 0; times--) {
        snprintf(frame, sizeof frame, "%02X%08X%08X\n", (unsigned)c.operation & 255u, (unsigned)c.x, (unsigned)c.y);
        say(frame, 19);
        if (ring_step(ring->bytes, ring->len, c.operation & 255u, c.x, c.y, answer, sizeof answer) != RING_OK) break;
    }
}

static void say_piece(struct input *in)
{
    size_t len = take_byte(in);
    if (len > in->left) len = in->left;
    say(in->at, len);
    in->at += len;
    in->left -= len;
}

/* Many times the same byte: a long line, or many empty ones. */
static void say_run(struct input *in)
{
    uint8_t run[64];
    memset(run, (int)take_byte(in), sizeof run);
    for (uint32_t times = take_byte(in); times != 0; times--) say(run, sizeof run);
}

static void take_text(struct input *in)
{
    static struct ring ring;
    text_len = 0;
    if (take_byte(in) % 2 == 0) {
        say(in->at, in->left);
        return;
    }
    memset(&ring, 0, sizeof ring);
    ring.len = RING_RECORD_BYTES;
    while (in->left != 0 && text_len < MOST_TEXT) {
        switch (take_byte(in) % 8) {
        case 7: say_founding(in, &ring); break;
        case 6: say_piece(in); break;
        case 5: say_run(in); break;
        default: say_commands(in, &ring); break;
        }
    }
}

static int digits(const uint8_t *line, size_t len)
{
    for (size_t i = 0; i < len; i++)
        if (!(line[i] >= '0' && line[i] <= '9') && !(line[i] >= 'A' && line[i] <= 'F')) return 0;
    return 1;
}

/* EE and a refusal that ringrun can have (2 to 14, or FF), or an answer: a kind up to 7 and 22 digits more. */
static int is_answer(const uint8_t *line, size_t len)
{
    if (!digits(line, len)) return 0;
    if (len == 4 && memcmp(line, "EE", 2) == 0)
        return memcmp(line + 2, "FF", 2) == 0 || (line[2] == '0' && line[3] >= '2' && line[3] <= 'E');
    return len == 24 && line[0] == '0' && line[1] >= '0' && line[1] <= '7' && line[2] <= '3';
}

static void must_be_answers(size_t lines)
{
    size_t start = 0;
    must(lines_in(output, output_len) == lines, "ringrun: not one line of output for each line of input");
    for (size_t i = 0; i < output_len; i++) {
        if (output[i] != '\n') continue;
        must(is_answer(output + start, i - start), "ringrun: a line that is none of document 01's");
        start = i + 1;
    }
    must(start == output_len, "ringrun: the last line of output does not end");
}

static void must_say(const char *what)
{
    must(strstr(said, what) != NULL, "ringrun: a failure that is not told on standard error");
}

/* Where a read fails, the lines that had ended by then are answered; one that had begun is told to be dropped, with its bytes held. */
static void must_tell_failed_read(void)
{
    char dropped[80];
    size_t begun = 0;
    while (begun < text_at && text[text_at - begun - 1] != '\n') begun++;
    if (begun > 515) begun = 515;
    must_say("ringrun: standard input: ");
    snprintf(dropped, sizeof dropped, "ringrun: %u bytes held of a line that had not ended were dropped\n", (unsigned)begun);
    if (begun != 0) must_say(dropped);
    must_be_answers(lines_in(text, text_at));
}

/* Where a write fails, what came before it was right, and it is told how many bytes of the block were not written. */
static void must_tell_failed_write(size_t expected_len)
{
    if (output_len == expected_len) return;
    if (portion % 2 == 0) must_say("ringrun: standard output: ");
    must_say(" bytes of output were not written\n");
}

static void run(int (*ringrun)(void), const char *differs)
{
    size_t read_len = text_len, expected_len;
    text_at = output_len = said_len = lines_read = lines_written = 0;
    calls = 0;
    good_writes = portion % 32;
    good_reads = faults % 128;
    memset(said, 0, sizeof said);
    must(ringrun() == 0, "ringrun: an exit status that is not 0");
    int cut = faults >= 128 && strstr(said, "standard input") != NULL;
    if (cut)
        for (read_len = text_at; read_len != 0 && text[read_len - 1] != '\n';) read_len--;
    expected_len = model_ringrun(text, read_len, expected, sizeof expected);
    must(output_len <= expected_len && memcmp(output, expected, output_len) == 0, differs);
    if (portion >= 192) {
        must_tell_failed_write(expected_len);
        return;
    }
    must(output_len == expected_len, differs);
    if (cut) {
        must_tell_failed_read();
        return;
    }
    must(said_len == 0, "ringrun: something on standard error, where nothing failed");
    must(text_at == text_len, differs);
    must_be_answers(lines_in(text, text_len) + (text_len != 0 && text[text_len - 1] != '\n'));
}

int LLVMFuzzerTestOneInput(const uint8_t *data, size_t size)
{
    struct input in = {data, size};
    piece = take_byte(&in);
    portion = take_byte(&in);
    faults = take_byte(&in);
    take_text(&in);
    run(traced_ringrun, "the traced ringrun and the model differ");
    run(shipped_ringrun, "ringrun and the model differ");
    return 0;
}
