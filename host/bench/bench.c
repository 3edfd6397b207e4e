/* bench: the library and both engines of its CRC beside plain C on the same jobs, and the stack that each exported function uses.
 *
 * The two take turns in short slices within one process, so that other load on the machine hits both, and medians are shown.
 * Before anything is timed, both must give the same answers on the bytes measured and on many others.
 *
 *   bench rows      a line for each job, its parts between tabs: name, unit, library, plain C, ratio
 *   bench stacks    the stack of each exported function
 *
 * Where the code lies moves the times of short calls by up to a third: bench/table puts the rows of several placements together. */
#define _POSIX_C_SOURCE 200809L
#include "bench.h"
#include "bench_board.h"
#include "bench_log.h"
#include "bench_replay.h"
#include "mfc.h"
#include "plain.h"
#include "stack.h"
#include "traffic.h"

#include <stdio.h>
#include <stdlib.h>
#include <string.h>
#include <time.h>

#define SLICES 201
#define SLICE_NS 200000.0
#define LONGEST 600              /* room for any frame */
#define MOST_PLACE 200000        /* of a fault */

static uint8_t polling[TRAFFIC], escapes[TRAFFIC], damaged[TRAFFIC], broken[TRAFFIC], noise[TRAFFIC], any_bytes[TRAFFIC];
static size_t polling_n, escapes_n, damaged_n, broken_n;
static struct poll polls[POLLS];
/* Texts: letters, such with more and more special bytes among them, and special bytes alone. 255 letters are one too many. */
#define TEXT 254
static uint8_t letters[TEXT + 1], middle[TEXT], every_16[TEXT], every_4[TEXT], specials[TEXT];
static uint8_t sfc6_words[9], liquid_words[9];

volatile size_t sink;

/* ---- the jobs ---- */

static struct { const uint8_t *bytes; size_t n, piece; } wire;
static uint8_t record[MFC_RECORD_SIZE], frame[MFC_FRAME_ROOM], plain_frame[MFC_FRAME_ROOM], out[LONGEST];
static struct plain_receiver receiver;
static size_t ends[TRAFFIC / 8], answers;   /* of the answers in the polling traffic, each of over 8 bytes */

static size_t smaller(size_t a, size_t b)
{
    return a < b ? a : b;
}

typedef struct plain_fed feed_call(uint8_t, const uint8_t *, size_t);

static inline struct plain_fed as_plain(mfc_fed fed)
{
    return (struct plain_fed){ fed.refusal, fed.place, fed.frame_length, fed.taken };
}

static struct plain_fed feed_library_once(uint8_t silence, const uint8_t *piece, size_t n)
{
    return as_plain(mfc_feed(record, sizeof record, silence, piece, n, frame, sizeof frame));
}

static struct plain_fed feed_plain_once(uint8_t silence, const uint8_t *piece, size_t n)
{
    return plain_feed(&receiver, silence, piece, n, plain_frame, sizeof plain_frame);
}

static struct plain_fed feed_own_once(uint8_t silence, const uint8_t *piece, size_t n)
{
    return plain_feed_own(&receiver, silence, piece, n);
}

/* The whole traffic in pieces. It is laid into each of the three below, so that the calls are direct ones. */
static inline void feed_all(feed_call *once)
{
    size_t frames = 0;

    for (size_t at = 0; at < wire.n; at += wire.piece) {
        const uint8_t *piece = wire.bytes + at;
        size_t left = smaller(wire.piece, wire.n - at);

        while (left > 0) {
            struct plain_fed fed = once(0, piece, left);

            frames += fed.frame_length;
            piece += fed.taken;
            left -= fed.taken;
        }
    }
    sink = frames;
}

static void feed_library(void) { feed_all(feed_library_once); }
static void feed_plain(void) { feed_all(feed_plain_once); }
static void feed_own(void) { feed_all(feed_own_once); }

/* The polling traffic, each answer in one call and after silence. */
static inline void feed_answers(feed_call *once)
{
    size_t frames = 0, at = 0;

    for (size_t i = 0; i < answers; i++) {
        frames += once(1, polling + at, ends[i] - at).frame_length;
        at = ends[i];
    }
    sink = frames;
}

static void answers_library(void) { feed_answers(feed_library_once); }
static void answers_plain(void) { feed_answers(feed_plain_once); }

/* An answer ends with its second 7E. */
static void find_answers(void)
{
    size_t delimiters = 0;

    for (size_t i = 0; i < polling_n; i++)
        if (polling[i] == 0x7E && ++delimiters % 2 == 0)
            ends[answers++] = i + 1;
}

/* A round's requests, each into the room left behind the one before. */
static void requests_library(void)
{
    static uint8_t round[LONGEST];
    size_t at = 0;

    for (size_t i = 0; i < POLLS; i++)
        at += mfc_write_request(polls[i].address, polls[i].request, 0, round + at, sizeof round - at).length;
    sink = at;
}

static void requests_plain(void)
{
    static uint8_t round[LONGEST];
    size_t at = 0;

    for (size_t i = 0; i < POLLS; i++)
        at += plain_write_request(polls[i].address, polls[i].request, 0, round + at, sizeof round - at).length;
    sink = at;
}

static void setpoints_library(void)
{
    for (size_t i = 0; i < POLLS; i++)
        sink = mfc_write_request(polls[i].address, 1, polls[i].value, out, sizeof out).length;
}

static void setpoints_plain(void)
{
    for (size_t i = 0; i < POLLS; i++)
        sink = plain_write_request(polls[i].address, 1, polls[i].value, out, sizeof out).length;
}

static const uint8_t *text = specials;
static const struct { const char *job; const uint8_t *text; } replies[] = {
    { "write a reply of 254 letters", letters },
    { "write a reply, one special byte in the middle", middle },
    { "write a reply, one special byte in every 16", every_16 },
    { "write a reply, one special byte in every 4", every_4 },
    { "write the longest reply, 518 bytes", specials },
};
#define REPLIES (sizeof replies / sizeof replies[0])

/* Letters with a special byte at a first place and at every so many after it, each of the four in turn. */
static void lay_text(uint8_t *bytes, size_t n, size_t first, size_t every)
{
    static const uint8_t special[4] = { 0x7E, 0x7D, 0x11, 0x13 };

    for (size_t i = 0; i < n; i++)
        bytes[i] = (uint8_t)('A' + i % 26);
    for (size_t i = first, count = 0; i < n; i += every, count++)
        bytes[i] = special[count % 4];
}

static void lay_texts(void)
{
    lay_text(letters, sizeof letters, sizeof letters, 1);
    lay_text(middle, sizeof middle, sizeof middle / 2, sizeof middle);
    lay_text(every_16, sizeof every_16, 15, 16);
    lay_text(every_4, sizeof every_4, 3, 4);
    lay_text(specials, sizeof specials, 0, 1);
}

static void reply_library(void)
{
    sink = mfc_write_reply(0x11, 20, 0, 14, 0, text, TEXT, 0, out, sizeof out).length;
}

static void reply_plain(void)
{
    sink = plain_write_reply(0x11, 20, 0, 14, 0, text, TEXT, 0, out, sizeof out).length;
}

static void read_library(void)
{
    size_t sum = 0;

    for (size_t i = 0; i < POLLS; i++)
        sum += mfc_read_reply(polls[i].address, polls[i].request, 0, polls[i].body, polls[i].length).value;
    sink = sum;
}

static void read_plain(void)
{
    size_t sum = 0;

    for (size_t i = 0; i < POLLS; i++)
        sum += plain_read_reply(polls[i].address, polls[i].request, 0, polls[i].body, polls[i].length).value;
    sink = sum;
}

/* Both engines, of which mfc_crc takes one by the length: from a library of their own, since libmfc.a exports neither by itself. */
uint8_t engine_plain(uint8_t start, const uint8_t *bytes, size_t n);
uint8_t engine_table(uint8_t start, const uint8_t *bytes, size_t n);

typedef uint8_t crc_call(uint8_t, const uint8_t *, size_t);

static size_t crc_n, crc_row;

/* Laid into each of the five below, as feed_all is. */
static inline void crc_all(crc_call *once)
{
    size_t sum = 0;

    for (size_t i = 0; i < crc_row; i++)
        sum += once(0xFF, any_bytes + i, crc_n);
    sink = sum;
}

static void crc_library(void) { crc_all(mfc_crc); }
static void crc_engine_plain(void) { crc_all(engine_plain); }
static void crc_engine_table(void) { crc_all(engine_table); }
static void crc_plain(void) { crc_all(plain_crc); }
static void crc_folded(void) { crc_all(plain_crc_folded); }

static uint16_t words[3], row_of_numbers[3 * ROW];
static uint8_t row_of_words[9 * ROW];

static void words_library(void)
{
    size_t sum = 0;

    for (size_t i = 0; i < ROW; i++)
        sum += mfc_read_words(MFC_START_SFC6, row_of_words + 9 * i, 9, words, 3).count + words[2];
    sink = sum;
}

static void words_plain(void)
{
    size_t sum = 0;

    for (size_t i = 0; i < ROW; i++)
        sum += plain_read_words(0xFF, row_of_words + 9 * i, 9, words, 3).count + words[2];
    sink = sum;
}

static void words_folded(void)
{
    size_t sum = 0;

    for (size_t i = 0; i < ROW; i++)
        sum += plain_read_words_folded(0xFF, row_of_words + 9 * i, 9, words, 3).count + words[2];
    sink = sum;
}

/* The numbers of the words that are read. */
static void lay_numbers(void)
{
    for (size_t i = 0; i < 3 * ROW; i++)
        row_of_numbers[i] = (uint16_t)(row_of_words[3 * i] << 8 | row_of_words[3 * i + 1]);
}

static void write_words_library(void)
{
    size_t sum = 0;

    for (size_t i = 0; i < ROW; i++)
        sum += mfc_write_words(MFC_START_SFC6, row_of_numbers + 3 * i, 3, out, sizeof out).length + out[8];
    sink = sum;
}

static void write_words_plain(void)
{
    size_t sum = 0;

    for (size_t i = 0; i < ROW; i++)
        sum += plain_write_words(0xFF, row_of_numbers + 3 * i, 3, out, sizeof out).length + out[8];
    sink = sum;
}

static void write_words_folded(void)
{
    size_t sum = 0;

    for (size_t i = 0; i < ROW; i++)
        sum += plain_write_words_folded(0xFF, row_of_numbers + 3 * i, 3, out, sizeof out).length + out[8];
    sink = sum;
}

static void sfc6_library(void)
{
    size_t sum = 0;

    for (size_t i = 0; i < ROW; i++)
        sum += mfc_write_sfc6(MFC_SFC6_START_MIXTURE0, 500, out, sizeof out).length + out[4];
    sink = sum;
}

static void sfc6_plain(void)
{
    size_t sum = 0;

    for (size_t i = 0; i < ROW; i++)
        sum += plain_write_sfc6(0x3650, 500, out, sizeof out).length + out[4];
    sink = sum;
}

static void sfc6_folded(void)
{
    size_t sum = 0;

    for (size_t i = 0; i < ROW; i++)
        sum += plain_write_sfc6_folded(0x3650, 500, out, sizeof out).length + out[4];
    sink = sum;
}

/* ---- the same answers ---- */

static unsigned long compared, unlike;

void compare(int same, const char *what)
{
    compared++;
    if (!same && unlike++ < 10)
        (void)printf("different answers: %s\n", what);
}

static void compare_fresh(uint8_t kind)
{
    compare(mfc_receiver_fresh(kind, record, sizeof record) == 0, "fresh");
    plain_fresh(&receiver, kind);
}

static void compare_noise(void)
{
    mfc_noise told = mfc_receiver_noise(record, sizeof record);

    compare(told.refusal == 0 && told.count == receiver.noise, "noise");
}

/* The frames have the same bytes all along: what is no body is untouched. */
static int is_same(struct plain_fed fed, struct plain_fed plain)
{
    return fed.taken == plain.taken && fed.refusal == plain.refusal && fed.place == plain.place
        && fed.frame_length == plain.frame_length && memcmp(frame, plain_frame, sizeof frame) == 0;
}

/* One call of each. Where they take different numbers of bytes, 0 is answered as taken. */
static struct plain_fed compare_feed(uint8_t silence, const uint8_t *piece, size_t n)
{
    struct plain_fed fed = feed_library_once(silence, piece, n), plain = feed_plain_once(silence, piece, n);

    compare(is_same(fed, plain), silence ? "feed after silence" : "feed");
    compare_noise();
    if (fed.taken != plain.taken)
        plain.taken = 0;
    return plain;
}

/* One call of each that is refused: for a room that is a byte short, a record out of its range, or both. The record stays as it is, and
   the silence is not dealt with. */
static void compare_refused(uint8_t silence, const uint8_t *piece, size_t n)
{
    uint8_t mode = record[1], plain_mode = receiver.mode, before[MFC_RECORD_SIZE];
    unsigned wrong = 1 + any(3);
    size_t room = sizeof frame - (wrong & 1);
    struct plain_fed fed, plain;

    if (wrong & 2)
        record[1] = receiver.mode = 5;
    memcpy(before, record, sizeof before);
    fed = as_plain(mfc_feed(record, sizeof record, silence, piece, n, frame, room));
    plain = plain_feed(&receiver, silence, piece, n, plain_frame, room);
    compare(is_same(fed, plain) && fed.refusal == (wrong & 2 ? 2 : 1) && memcmp(record, before, sizeof before) == 0, "refused feed");
    record[1] = mode;
    receiver.mode = plain_mode;
}

/* Silence in one of so many calls: any number but 0. */
static uint8_t any_silence(uint32_t calls)
{
    return (uint8_t)(any(calls) == 0 ? 1 + any(255) : 0);
}

/* A piece, and before some of them a refused call and an empty piece, with silence or without. Returns the bytes taken. */
static size_t compare_piece(const uint8_t *piece, size_t n, uint32_t calls)
{
    struct plain_fed fed;

    if (any(calls) == 0) {
        size_t of = n * any(2);

        compare_refused(any_silence(2), piece, of);
    }
    if (any(calls) == 0)
        (void)compare_feed(any_silence(2), piece, 0);
    fed = compare_feed(any_silence(calls), piece, n);
    /* The silence cut a stretch and no byte was taken: the piece comes again without it. */
    if (fed.refusal == 9)
        fed = compare_feed(0, piece, n);
    return fed.taken;
}

/* From a fresh receiver that has counted so much noise. In one of so many calls there is silence, at another place each time. */
static void compare_feeds_from(uint32_t count, uint8_t kind, const uint8_t *bytes, size_t n, size_t piece, uint32_t calls)
{
    compare_fresh(kind);
    for (unsigned i = 0; i < 4; i++)
        record[4 + i] = (uint8_t)(count >> (24 - 8 * i));
    receiver.noise = count;
    for (size_t at = 0; at < n;) {
        size_t taken = compare_piece(bytes + at, smaller(piece, n - at), calls);

        if (taken == 0)
            return;
        at += taken;
    }
}

static void compare_feeds(uint8_t kind, const uint8_t *bytes, size_t n, size_t piece, uint32_t calls)
{
    compare_feeds_from(0, kind, bytes, n, piece, calls);
}

/* The calls of feed_answers: each gives its frame. */
static void compare_answers(void)
{
    size_t at = 0;

    compare_fresh(1);
    for (size_t i = 0; i < answers; i++) {
        struct plain_fed fed = compare_feed(1, polling + at, ends[i] - at);

        compare(fed.frame_length > 0 && fed.taken == ends[i] - at, "answer after silence");
        at = ends[i];
    }
    compare(at == polling_n, "answers");
}

/* One stretch with one fault, without a silence in it: its place is known. */
static void compare_place(size_t place, size_t every, unsigned fault, size_t piece)
{
    static uint8_t bytes[MOST_PLACE + 4];
    size_t n = broken_stretch(bytes, place, every, fault), found = 0;
    uint8_t refusal = fault < BARE_FAULTS ? 4 : 3;

    compare_fresh(1);
    for (size_t at = 0; at < n;) {
        struct plain_fed fed = compare_feed(0, bytes + at, smaller(piece, n - at));

        if (fed.taken == 0)
            break;
        at += fed.taken;
        found += fed.refusal == refusal && fed.place == smaller(place, 65535);
    }
    compare(found == 1, "place");
}

/* At the start, where the store is full, where the places end, and where the plain receiver's counts have stopped or begun again. */
static void compare_places(size_t piece)
{
    static const size_t places[] = {
        0, 1, 2, 3, 258, 259, 260, 261, 262, 263, 518, 519, 520, 521, 522, 523, 65533, 65534, 65535, 65536, 65537, 70000, MOST_PLACE
    };

    for (size_t i = 0; i < sizeof places / sizeof places[0]; i++)
        for (size_t every = 0; every <= 3; every++)
            for (unsigned fault = 0; fault < FAULTS; fault++)
                compare_place(places[i], every, fault, piece);
}

static const uint32_t values[] = {
    0, 1, 2, 17, 254, 255, 256, 9600, 14400, 19200, 38400, 57600, 65535, 65536, 115200, 0x3F800000, 0x7D7E1113, 0x7F7FFFFF,
    0x7F800000, 0x7F800001, 0x7FC00000, 0x80000000, 0xFF800000, 0xFFC00000, 0xFFFFFFFF,
};
#define VALUES (sizeof values / sizeof values[0])
static const uint8_t addresses[] = { 0, 1, 0x11, 0x13, 0x3C, 0x7D, 0x7E, 0xA7, 0xA9, 254, 255 };

static void compare_requests(uint8_t address, uint8_t request, uint32_t value)
{
    static uint8_t one[32], other[32];

    for (size_t room = 0; room <= 20; room++) {
        mfc_written a;
        struct plain_written b;

        memset(one, 0xAA, sizeof one);
        memset(other, 0xAA, sizeof other);
        a = mfc_write_request(address, request, value, one, room);
        b = plain_write_request(address, request, value, other, room);
        compare(a.refusal == b.refusal && a.length == b.length && memcmp(one, other, sizeof one) == 0, "write request");
    }
}

static void compare_read_request(const uint8_t *body, size_t n)
{
    mfc_request a = mfc_read_request(body, n);
    struct plain_request b = plain_read_request(body, n);

    compare(a.refusal == b.refusal && a.address == b.address && a.request == b.request && a.value == b.value, "read request");
}

static const uint8_t commands[] = { 0x00, 0x08, 0x22, 0x30, 0x40, 0x44, 0x45, 0x46, 0x90, 0x91, 0xD0, 0xD3 };

/* A body with a right checksum, then the same with each byte off by one. */
static void compare_request_bodies(uint8_t address, uint8_t command, const uint8_t *data, size_t n)
{
    uint8_t body[16] = { 0 };

    body[0] = address;
    body[1] = command;
    body[2] = (uint8_t)n;
    memcpy(body + 3, data, n);
    body[3 + n] = mfc_checksum(body, 3 + n);
    compare_read_request(body, n + 4);
    for (size_t i = 0; i < n + 4; i++) {
        body[i]++;
        compare_read_request(body, n + 4);
        body[i]--;
    }
}

/* A subcommand and a value, or a value alone: its bytes, one more, or its last ones. */
static void compare_read_requests(void)
{
    static const uint8_t subs[] = { 0x00, 0x01, 0x02, 0x03, 0x10, 0x14, 0x7F };
    static const uint8_t body[300] = { 0 };

    for (size_t c = 0; c < sizeof commands; c++)
        for (size_t s = 0; s < sizeof subs; s++)
            for (size_t v = 0; v < VALUES; v++) {
                uint8_t data[6] = { subs[s], 0, 0, 0, 0, 9 }, address = (uint8_t)(v % 2 == 0 ? 7 : 255);

                for (unsigned k = 0; k < 4; k++)
                    data[1 + k] = (uint8_t)(values[v] >> (24 - 8 * k));
                for (size_t n = 0; n <= 6; n++)
                    compare_request_bodies(address, commands[c], data, n);
                for (size_t n = 0; n <= 4; n++)
                    compare_request_bodies(address, commands[c], data + 5 - n, n);
            }
    for (size_t n = 0; n <= sizeof body; n++)
        compare_read_request(body, n);
}

/* Behind what is written every byte is as it was, also where both write too much: all of them where nothing is written. */
static void compare_written_reply(uint8_t address, uint8_t request, uint8_t reply, uint32_t value, const uint8_t *bytes,
                                  size_t n, size_t room)
{
    static uint8_t one[LONGEST], other[LONGEST], before[LONGEST];
    uint8_t bit7 = (uint8_t)(value % 3 == 1);
    mfc_written a;
    struct plain_written b;

    memset(before, 0xAA, sizeof before);
    memset(one, 0xAA, sizeof one);
    memset(other, 0xAA, sizeof other);
    a = mfc_write_reply(address, request, 5, reply, value, bytes, n, bit7, one, room);
    b = plain_write_reply(address, request, 5, reply, value, bytes, n, bit7, other, room);
    compare(a.refusal == b.refusal && a.length == b.length && memcmp(one, other, sizeof one) == 0, "write reply");
    compare(a.length <= room && memcmp(one + smaller(a.length, room), before, sizeof before - smaller(a.length, room)) == 0,
            "behind a reply");
}

static void compare_read_reply(uint8_t address, uint8_t request, uint32_t value, const uint8_t *body, size_t n)
{
    mfc_reply a = mfc_read_reply(address, request, value, body, n);
    struct plain_reply b = plain_read_reply(address, request, value, body, n);

    compare(a.refusal == b.refusal && a.code == b.code && a.bit7 == b.bit7 && a.reply == b.reply && a.value == b.value
            && a.text_start == b.text_start && a.text_length == b.text_length, "read reply");
}

/* A body with a right checksum, then the same with each byte off by one. */
static void compare_bodies(uint8_t request, uint8_t command, uint8_t state, const uint8_t *data, size_t n)
{
    uint8_t body[261] = { 7 };

    body[1] = command;
    body[2] = state;
    body[3] = (uint8_t)n;
    if (n > 0)
        memcpy(body + 4, data, n);
    body[4 + n] = mfc_checksum(body, 4 + n);
    compare_read_reply(7, request, 5, body, n + 5);
    compare_read_reply(8, request, 5, body, n + 5);
    compare_read_reply(7, request, 5, body, n + 4);
    for (size_t i = 0; i < n + 5; i++) {
        body[i]++;
        compare_read_reply(7, request, 5, body, n + 5);
        body[i]--;
    }
}

static void compare_replies(uint8_t request)
{
    static const uint8_t states[4] = { 0x00, 0x00, 0x85, 0x80 };

    for (uint8_t reply = 0; reply <= 16; reply++)
        for (size_t v = 0; v < VALUES; v++) {
            compare_written_reply(7, request, reply, values[v], specials, 3, LONGEST);
            compare_written_reply(0x11, request, reply, values[v], letters, 254, 10 + v % 8);
        }
    compare_written_reply(255, request, 15, 1, letters, 3, LONGEST);
    for (size_t c = 0; c < sizeof commands; c++)
        for (size_t v = 0; v < VALUES; v++) {
            uint8_t data[5] = { 0, 0, 0, 0, 9 };

            for (unsigned k = 0; k < 4; k++)
                data[k] = (uint8_t)(values[v] >> (24 - 8 * k));
            for (size_t n = 0; n <= 5; n++)
                compare_bodies(request, commands[c], states[v % 4], data + (n < 4 ? 4 - n : 0), n);
        }
}

/* A text with room to spare, with exactly what its frame needs, and with a byte less. */
static void compare_text(uint8_t address, const uint8_t *bytes, size_t n)
{
    size_t length = plain_write_reply(address, 20, 5, 14, 0, bytes, n, 0, out, sizeof out).length;

    compare(length >= n + 8 && length <= LONGEST, "length of a reply");
    compare_written_reply(address, 20, 14, 0, bytes, n, LONGEST);
    compare_written_reply(address, 20, 14, 0, bytes, n, length);
    compare_written_reply(address, 20, 14, 0, bytes, n, length - 1);
}

/* Runs of plain bytes of every length from every place, and texts of which one in 2 to one in 128 bytes is special. */
static void compare_runs(void)
{
    uint8_t data[TEXT];

    for (size_t first = 0; first <= TEXT; first++)
        for (size_t every = 1; every <= 40; every++) {
            lay_text(data, sizeof data, first, every);
            compare_text((uint8_t)(first % 255), data, sizeof data);
            compare_text((uint8_t)(every * 6), data, first);
        }
    for (size_t i = 0; i < REPLIES; i++)
        for (size_t n = 0; n <= TEXT; n++)
            compare_text(0x11, replies[i].text, n);
    for (uint32_t share = 2; share <= 128; share *= 2)
        for (size_t turn = 0; turn < 1000; turn++) {
            for (size_t i = 0; i < sizeof data; i++)
                data[i] = any(share) == 0 ? specials[any(4)] : (uint8_t)(1 + any(255));
            compare_text((uint8_t)any(255), data, any(TEXT + 1));
        }
}

static void compare_texts(void)
{
    uint8_t data[255];

    for (size_t room = 0; room <= LONGEST; room++) {
        for (size_t i = 0; i < REPLIES; i++)
            compare_written_reply(0x11, 20, 14, 0, replies[i].text, TEXT, room);
        compare_written_reply(3, 20, 14, 0, letters, room % 256, room);
    }
    compare_runs();
    compare_written_reply(3, 20, 14, 0, NULL, 0, LONGEST);
    memcpy(data, letters, 254);
    data[100] = 0;
    data[254] = 0x41;
    compare_written_reply(3, 20, 14, 0, data, 254, LONGEST);
    compare_written_reply(3, 20, 14, 0, data, 255, LONGEST);
    for (size_t n = 0; n <= 255; n++)
        compare_bodies(20, 0xD0, 0, data, n);
}

static void compare_crc(uint8_t start, const uint8_t *bytes, size_t n)
{
    uint8_t crc = mfc_crc(start, bytes, n);

    compare(crc == plain_crc(start, bytes, n) && crc == plain_crc_folded(start, bytes, n), "crc");
    compare(crc == engine_plain(start, bytes, n) && crc == engine_table(start, bytes, n), "crc of an engine");
}

static void compare_words(uint8_t start, uint8_t *bytes)
{
    for (size_t n = 0; n <= 9; n++)
        for (size_t room = 0; room <= 3; room++)
            for (unsigned flip = 0; flip <= 72; flip++) {
                uint16_t one[4] = { 1, 2, 3, 4 }, other[4] = { 1, 2, 3, 4 }, third[4] = { 1, 2, 3, 4 };
                mfc_words a;
                struct plain_words b, c;

                if (flip < 72)
                    bytes[flip / 8] = (uint8_t)(bytes[flip / 8] ^ 1u << flip % 8);
                a = mfc_read_words(start, bytes, n, one, room);
                b = plain_read_words(start, bytes, n, other, room);
                c = plain_read_words_folded(start, bytes, n, third, room);
                compare(a.refusal == b.refusal && a.count == b.count && memcmp(one, other, sizeof one) == 0
                        && a.refusal == c.refusal && a.count == c.count && memcmp(one, third, sizeof one) == 0, "read words");
                if (flip < 72)
                    bytes[flip / 8] = (uint8_t)(bytes[flip / 8] ^ 1u << flip % 8);
            }
}

/* What the library and both of plain C wrote; the first so many bytes are looked at, more than any of them may write. */
#define LOOKED_AT 16
static struct { uint8_t library[LOOKED_AT], plain[LOOKED_AT], folded[LOOKED_AT]; } wrote;

static void compare_wrote(mfc_written a, struct plain_written b, struct plain_written c, const char *what)
{
    compare(a.refusal == b.refusal && a.length == b.length && memcmp(wrote.library, wrote.plain, LOOKED_AT) == 0
            && a.refusal == c.refusal && a.length == c.length && memcmp(wrote.library, wrote.folded, LOOKED_AT) == 0, what);
}

static void compare_write_words(uint8_t start, const uint16_t *numbers, size_t n, size_t room)
{
    memset(&wrote, 0xAA, sizeof wrote);
    compare_wrote(mfc_write_words(start, numbers, n, wrote.library, room),
                  plain_write_words(start, numbers, n, wrote.plain, room),
                  plain_write_words_folded(start, numbers, n, wrote.folded, room), "write words");
}

static void compare_sfc6(uint16_t code, uint32_t concentration, size_t room)
{
    memset(&wrote, 0xAA, sizeof wrote);
    compare_wrote(mfc_write_sfc6(code, concentration, wrote.library, room),
                  plain_write_sfc6(code, concentration, wrote.plain, room),
                  plain_write_sfc6_folded(code, concentration, wrote.folded, room), "write SFC6 command");
}

/* Every room and start value, every word, and the words measured. */
static void compare_written_words(void)
{
    for (unsigned start = 0; start < 256; start++)
        for (size_t n = 0; n <= 4; n++)
            for (size_t room = 0; room <= 14; room++)
                compare_write_words((uint8_t)start, row_of_numbers + start % ROW, n, room);
    for (unsigned i = 0; i < 65536; i++) {
        uint16_t number = (uint16_t)i;

        compare_write_words(0xFF, &number, 1, 3);
        compare_write_words(0x00, &number, 1, 3);
    }
    for (size_t i = 0; i < ROW; i++)
        compare_write_words(0xFF, row_of_numbers + 3 * i, 3, LOOKED_AT);
}

/* Every code, every concentration and beyond, and those whose low bits alone would be good. */
static void compare_commands(void)
{
    static const uint16_t codes[] = { 0xE102, 0xE000, 0xE17D, 0x3650, 0x365B, 0x3FEF, 0x3F6E, 0x3651 };
    static const uint32_t beyond[] = { 65535, 65536, 65536 + 500, 0x80000000, 0x800001F4, 0xFFFFFFFF };

    for (unsigned code = 0; code < 65536; code++) {
        compare_sfc6((uint16_t)code, 500, 5);
        compare_sfc6((uint16_t)code, 1001, 1);
    }
    for (size_t c = 0; c < sizeof codes / sizeof codes[0]; c++)
        for (size_t room = 0; room <= 6; room++) {
            for (uint32_t concentration = 0; concentration <= 1100; concentration++)
                compare_sfc6(codes[c], concentration, room);
            for (size_t i = 0; i < sizeof beyond / sizeof beyond[0]; i++)
                compare_sfc6(codes[c], beyond[i], room);
        }
}

static void compare_all(void)
{
    static const size_t pieces[] = { 1, 7, 16, 4096 };

    for (uint8_t kind = 0; kind <= 1; kind++)
        for (size_t p = 0; p < sizeof pieces / sizeof pieces[0]; p++)
            /* With silence seldom, so that long stretches come to their end, and often. */
            for (uint32_t calls = 1000; calls >= 10; calls /= 100) {
                compare_feeds(kind, polling, polling_n, pieces[p], calls);
                compare_feeds(kind, escapes, escapes_n, pieces[p], calls);
                compare_feeds(kind, damaged, damaged_n, pieces[p], calls);
                compare_feeds(kind, broken, broken_n, pieces[p], calls);
                compare_feeds(kind, any_bytes, sizeof any_bytes, pieces[p], calls);
                compare_feeds(kind, noise, sizeof noise, pieces[p], calls);
                compare_feeds_from(UINT32_MAX - TRAFFIC / 2, kind, noise, sizeof noise, pieces[p], calls);
                compare_feeds_from(UINT32_MAX - 1000, kind, any_bytes, sizeof any_bytes, pieces[p], calls);
            }
    compare_answers();
    for (size_t p = 0; p < sizeof pieces / sizeof pieces[0]; p++)
        compare_places(pieces[p]);
    for (size_t a = 0; a < sizeof addresses; a++)
        for (uint8_t request = 0; request <= 21; request++)
            for (size_t v = 0; v < VALUES; v++)
                compare_requests(addresses[a], request, values[v]);
    compare_read_requests();
    for (uint8_t request = 0; request <= 21; request++)
        compare_replies(request);
    compare_texts();
    for (size_t i = 0; i < POLLS; i++)
        compare_read_reply(polls[i].address, polls[i].request, 0, polls[i].body, polls[i].length);
    for (size_t n = 0; n <= 600; n++)
        compare_crc((uint8_t)n, any_bytes + n, n);
    compare_crc(0xFF, any_bytes, TRAFFIC);
    for (size_t i = 0; i < ROW; i++) {
        compare_crc(0xFF, any_bytes + i, 2);
        compare_crc(0xFF, any_bytes + i, 9);
    }
    for (unsigned i = 0; i < 65536; i++) {
        uint8_t byte = (uint8_t)i;

        compare_crc((uint8_t)(i >> 8), &byte, 1);
    }
    compare_words(0xFF, sfc6_words);
    compare_words(0x00, liquid_words);
    compare_written_words();
    compare_commands();
    compare_boards();
    compare_logs();
    compare_replays();
}

/* ---- the clock ---- */

static double now_ns(void)
{
    struct timespec t;

    (void)clock_gettime(CLOCK_MONOTONIC, &t);
    return (double)t.tv_sec * 1e9 + (double)t.tv_nsec;
}

static double slice(void (*job)(void), unsigned times)
{
    double start = now_ns();

    for (unsigned i = 0; i < times; i++)
        job();
    return (now_ns() - start) / times;
}

/* So many runs that a slice is long beside the clock and short beside a turn of the scheduler. */
static unsigned times_for(void (*job)(void))
{
    unsigned times = 1;

    while (times < 1000000 && slice(job, times) * times < SLICE_NS)
        times *= 2;
    return times;
}

static int by_size(const void *a, const void *b)
{
    double x = *(const double *)a, y = *(const double *)b;

    return (x > y) - (x < y);
}

static double median(double *values_of)
{
    qsort(values_of, SLICES, sizeof values_of[0], by_size);
    return values_of[SLICES / 2];
}

void measure(const char *name, const char *unit, size_t units, void (*library)(void), void (*plain)(void))
{
    static double one[SLICES], other[SLICES], ratio[SLICES];
    unsigned library_times = times_for(library), plain_times = times_for(plain);
    double per = (double)units;

    for (unsigned i = 0; i < SLICES; i++) {
        /* Each goes first in turn. */
        if (i % 2 == 0)
            one[i] = slice(library, library_times);
        other[i] = slice(plain, plain_times);
        if (i % 2 != 0)
            one[i] = slice(library, library_times);
        ratio[i] = one[i] / other[i];
    }
    (void)printf("%s\tns a %s\t%.3f\t%.3f\t%.3f\n", name, unit, median(one) / per, median(other) / per, median(ratio));
    (void)fflush(stdout);
}

static void start_receivers(void)
{
    (void)mfc_receiver_fresh(1, record, sizeof record);
    plain_fresh(&receiver, 1);
}

static void measure_feed(const char *name, const uint8_t *bytes, size_t n, size_t piece, void (*plain)(void))
{
    start_receivers();
    wire.bytes = bytes;
    wire.n = n;
    wire.piece = piece;
    measure(name, "byte", n, feed_library, plain);
}

/* mfc_crc beside C of both kinds, and each engine beside C of its own kind. */
static void measure_crc(const char *bytes, size_t n, size_t row)
{
    char name[64];

    crc_n = n;
    crc_row = row;
    (void)snprintf(name, sizeof name, "CRC of %s bytes, C with a table", bytes);
    measure(name, "call", row, crc_library, crc_plain);
    (void)snprintf(name, sizeof name, "CRC of %s bytes, C without a table", bytes);
    measure(name, "call", row, crc_library, crc_folded);
    (void)snprintf(name, sizeof name, "table engine, CRC of %s bytes, C with a table", bytes);
    measure(name, "call", row, crc_engine_table, crc_plain);
    (void)snprintf(name, sizeof name, "plain engine, CRC of %s bytes, C without a table", bytes);
    measure(name, "call", row, crc_engine_plain, crc_folded);
}

static void measure_all(void)
{
    measure_feed("receive polling traffic, pieces of 1", polling, polling_n, 1, feed_plain);
    measure_feed("receive polling traffic, pieces of 16", polling, polling_n, 16, feed_plain);
    measure_feed("receive polling traffic, pieces of 4,096", polling, polling_n, 4096, feed_plain);
    measure_feed("receive traffic full of escapes, pieces of 1", escapes, escapes_n, 1, feed_plain);
    measure_feed("receive traffic full of escapes, pieces of 16", escapes, escapes_n, 16, feed_plain);
    measure_feed("receive traffic full of escapes, pieces of 4,096", escapes, escapes_n, 4096, feed_plain);
    measure_feed("receive noise, pieces of 1", noise, sizeof noise, 1, feed_plain);
    measure_feed("receive noise, pieces of 4,096", noise, sizeof noise, 4096, feed_plain);
    measure_feed("  C without tests or copy, polling, pieces of 1", polling, polling_n, 1, feed_own);
    measure_feed("  C without tests or copy, polling, pieces of 16", polling, polling_n, 16, feed_own);
    measure_feed("  C without tests or copy, polling, 4,096", polling, polling_n, 4096, feed_own);
    measure_feed("  C without tests or copy, escapes, pieces of 1", escapes, escapes_n, 1, feed_own);
    measure_feed("  C without tests or copy, escapes, pieces of 16", escapes, escapes_n, 16, feed_own);
    measure_feed("  C without tests or copy, escapes, 4,096", escapes, escapes_n, 4096, feed_own);
    start_receivers();
    measure("receive polling traffic, each answer after silence", "byte", polling_n, answers_library, answers_plain);
    measure("write the requests of a polling round", "frame", POLLS, requests_library, requests_plain);
    measure("write set setpoint", "frame", POLLS, setpoints_library, setpoints_plain);
    for (size_t i = 0; i < REPLIES; i++) {
        text = replies[i].text;
        measure(replies[i].job, "frame", 1, reply_library, reply_plain);
    }
    measure("read the replies of a polling round", "frame", POLLS, read_library, read_plain);
    measure_crc("2", 2, ROW);
    measure_crc("9", 9, ROW);
    measure_crc("65,536", TRAFFIC, 1);
    measure("read three words, C with a table", "call", ROW, words_library, words_plain);
    measure("read three words, C without a table", "call", ROW, words_library, words_folded);
    measure("write three words, C with a table", "call", ROW, write_words_library, write_words_plain);
    measure("write three words, C without a table", "call", ROW, write_words_library, write_words_folded);
    measure("write an SFC6 concentration, C with a table", "call", ROW, sfc6_library, sfc6_plain);
    measure("write an SFC6 concentration, C without a table", "call", ROW, sfc6_library, sfc6_folded);
    measure_boards();
    measure_logs();
    measure_replays();
}

/* ---- the stack ---- */

static void use_checksum(void) { sink = mfc_checksum(any_bytes, MFC_FRAME_ROOM); }
static void use_crc(void) { sink = mfc_crc(MFC_START_SFC6, any_bytes, MFC_FRAME_ROOM); }

/* Good requests and refused ones, and rooms that hold them and do not. */
static void use_write_request(void)
{
    for (uint8_t request = 0; request <= 21; request++)
        for (size_t v = 0; v < VALUES; v++)
            for (size_t room = 0; room <= 20; room += 5)
                sink = mfc_write_request(0x11, request, values[v], out, room).length;
}

static void use_write_request_at(void)
{
    for (uint8_t request = 0; request <= 21; request++)
        for (size_t v = 0; v < VALUES; v++)
            for (size_t start = 0; start <= 24; start += 6)
                sink = mfc_write_request_at(out, 20, start, 0x11, request, values[v]).length;
}

/* Bodies of all requests, and of some that are refused. */
static struct { uint8_t body[MFC_FRAME_ROOM]; size_t length; } bodies[21 * VALUES];

static void lay_bodies(void)
{
    for (size_t i = 0; i < 21 * VALUES; i++) {
        mfc_written written = mfc_write_request(0x11, (uint8_t)(i / VALUES), values[i % VALUES], out, sizeof out);

        (void)mfc_receiver_fresh(MFC_KIND_REQUEST, record, sizeof record);
        bodies[i].length = mfc_feed(record, sizeof record, 0, out, written.length, bodies[i].body, MFC_FRAME_ROOM).frame_length;
    }
}

static void use_read_request(void)
{
    for (size_t i = 0; i < 21 * VALUES; i++) {
        sink = mfc_read_request(bodies[i].body, bodies[i].length).value;
        sink = mfc_read_request(bodies[i].body, i % MFC_FRAME_ROOM).value;
    }
}

static void use_write_reply(void)
{
    for (uint8_t request = 0; request <= 20; request++)
        for (uint8_t reply = 0; reply <= 15; reply++)
            for (size_t v = 0; v < VALUES; v++)
                sink = mfc_write_reply(0x11, request, 5, reply, values[v], specials, 254, 1, out, sizeof out).length;
}

static uint8_t type_body[MFC_FRAME_ROOM];

static void lay_type(void)
{
    type_body[0] = 7;
    type_body[1] = 0xD0;
    type_body[3] = 255;
    memcpy(type_body + 4, letters, 255);
    type_body[259] = mfc_checksum(type_body, 259);
}

static void use_read_reply(void)
{
    for (uint8_t request = 0; request <= 20; request++)
        for (size_t i = 0; i < POLLS; i++) {
            sink = mfc_read_reply(polls[i].address, request, 5, polls[i].body, polls[i].length).value;
            sink = mfc_read_reply(polls[i].address, request, 5, polls[i].body, i).value;
        }
    sink = mfc_read_reply(7, 20, 0, type_body, sizeof type_body).text_length;
}

static void use_fresh(void) { sink = mfc_receiver_fresh(MFC_KIND_REPLY, record, sizeof record); }

/* Without silence; with it, where each stretch that is cut gives 9 first; and refused. */
static void use_feed(void)
{
    for (size_t at = 0; at < damaged_n;)
        at += mfc_feed(record, sizeof record, 0, damaged + at, damaged_n - at, frame, sizeof frame).taken;
    for (uint8_t silence = 0; silence <= 1; silence++)
        for (size_t at = 0; at < escapes_n;)
            at += mfc_feed(record, sizeof record, silence, escapes + at, smaller(16, escapes_n - at), frame, sizeof frame).taken;
    sink = mfc_feed(record, sizeof record, 1, damaged, 16, frame, sizeof frame - 1).refusal;
}

static void use_noise(void) { sink = mfc_receiver_noise(record, sizeof record).count; }

static void use_read_words(void)
{
    for (size_t n = 0; n <= 9; n++)
        sink = mfc_read_words(MFC_START_SFC6, sfc6_words, n, words, 3).count;
    sink = mfc_read_words(MFC_START_LIQUID, sfc6_words, 9, words, 3).count;
}

static void use_write_words(void) { sink = mfc_write_words(MFC_START_SFC6, words, 3, out, sizeof out).length; }

static void use_write_sfc6(void)
{
    sink = mfc_write_sfc6(MFC_SFC6_SET_CONCENTRATION, 500, out, sizeof out).length;
    sink = mfc_write_sfc6(MFC_SFC6_SHUT_VALVE, 0, out, sizeof out).length;
    sink = mfc_write_sfc6(0x1234, 0, out, sizeof out).length;
}

static void use_write_liquid(void)
{
    sink = mfc_write_liquid(MFC_LIQUID_WRITE_USER, 0x1234, out, sizeof out).length;
    sink = mfc_write_liquid(MFC_LIQUID_FLOW, 0, out, sizeof out).length;
    sink = mfc_write_liquid(0x12, 0, out, sizeof out).length;
}

static void use_edit_user(void) { sink = mfc_edit_user(0xFFFF, 3).value; }
static void use_edit_advanced(void) { sink = mfc_edit_advanced(0xFFFF, 3).value; }
static void use_scaled(void) { sink = (size_t)mfc_scaled(-12345, 6789, 17).value; }
static void use_scaled_float(void) { sink = mfc_scaled_float(-12345, 6789, 17).refusal; }

static void print_stacks(void)
{
    static const struct { const char *name; void (*use)(void); } uses[] = {
        { "mfc_checksum", use_checksum }, { "mfc_crc", use_crc }, { "mfc_write_request", use_write_request },
        { "mfc_write_request_at", use_write_request_at }, { "mfc_read_request", use_read_request },
        { "mfc_write_reply", use_write_reply }, { "mfc_read_reply", use_read_reply }, { "mfc_receiver_fresh", use_fresh },
        { "mfc_feed", use_feed }, { "mfc_receiver_noise", use_noise },
        { "mfc_read_words", use_read_words },
        { "mfc_write_words", use_write_words }, { "mfc_write_sfc6", use_write_sfc6 }, { "mfc_write_liquid", use_write_liquid },
        { "mfc_edit_user", use_edit_user }, { "mfc_edit_advanced", use_edit_advanced }, { "mfc_scaled", use_scaled },
        { "mfc_scaled_float", use_scaled_float }, { "mfc_board_open", use_board_open }, { "mfc_board_close", use_board_close },
        { "mfc_board_restart", use_board_restart }, { "mfc_board_poll", use_board_poll }, { "mfc_board_list", use_board_list },
        { "mfc_board_reply", use_board_reply }, { "mfc_board_acknowledged", use_board_acknowledged },
        { "mfc_log_empty", use_log_empty }, { "mfc_log_append", use_log_append }, { "mfc_log_check", use_log_check },
        { "mfc_log_list", use_log_list }, { "mfc_log_replay", use_log_replay },
    };

    lay_bodies();
    lay_type();
    (void)printf("deepest stack, with the caller's frame\n");
    for (size_t i = 0; i < sizeof uses / sizeof uses[0]; i++)
        (void)printf("%-52s %10lu   bytes\n", uses[i].name, (unsigned long)stack_use(uses[i].use));
}

int main(int argc, char **argv)
{
    if (argc != 2 || (strcmp(argv[1], "rows") != 0 && strcmp(argv[1], "stacks") != 0)) {
        (void)fprintf(stderr, "usage: bench rows | bench stacks\n");
        return 2;
    }

    polling_round(polls);
    polling_n = polling_traffic(polling, sizeof polling);
    find_answers();
    escapes_n = escape_traffic(escapes, sizeof escapes);
    damaged_n = damaged_traffic(damaged, sizeof damaged);
    random_bytes(any_bytes, sizeof any_bytes);
    good_words(0xFF, sfc6_words, 3);
    good_words(0x00, liquid_words, 3);
    good_words(0xFF, row_of_words, 3 * ROW);
    lay_numbers();
    lay_boards();
    lay_logs();
    broken_n = broken_traffic(broken, sizeof broken);
    noise_bytes(noise, sizeof noise);
    lay_replays();
    lay_texts();
    if (strcmp(argv[1], "stacks") == 0) {
        print_stacks();
        return 0;
    }
    compare_all();
    (void)fprintf(stderr, "%lu answers compared, %lu different\n", compared, unlike);
    if (unlike > 0) {
        (void)fprintf(stderr, "nothing is timed while the answers differ\n");
        return 1;
    }
    measure_all();
    return 0;
}
