#include "bench_replay.h"

#include "bench.h"
#include "bench_board.h"
#include "bench_log.h"
#include "mfc.h"
#include "plain.h"
#include "plain_replay.h"
#include "traffic.h"

#include <string.h>

#define PLACES MFC_BOARD_PLACES
#define ROOM MFC_LOG_ROOM
#define LEASE 120
#define MARKS 21666              /* the most records that a log can have */
#define LONGEST 64               /* bytes of a frame of these logs */

static uint8_t marks_file[ROOM], empties_file[ROOM], frames_file[ROOM], crumbs_file[ROOM], orders_file[ROOM], any_file[ROOM];
static struct log marks = { marks_file, LOG_CLOSE, 0 };
static struct log empties = { empties_file, LOG_CLOSE, 0 };   /* of kinds 1 and 2 */
static struct log frames = { frames_file, LOG_CLOSE, 0 };     /* polling traffic, a frame a record */
static struct log crumbs = { crumbs_file, LOG_CLOSE, 0 };     /* the same, a byte a record */
static struct log orders = { orders_file, LOG_CLOSE, 0 };     /* temporary calibrations that are opened, renewed and closed */
static size_t frames_bytes, crumbs_bytes, orders_count;      /* bytes of their bodies; orders, each with its reply */

/* ---- logs ---- */

static int has_room(const struct log *log, size_t n)
{
    return log->length + LOG_TRAILER + n <= ROOM;
}

static void lay_crumbs(uint8_t kind, const uint8_t *bytes, size_t n)
{
    for (size_t i = 0; i < n && has_room(&crumbs, 1); i++) {
        lay_body(&crumbs, kind, bytes + i, 1);
        crumbs_bytes++;
    }
}

/* Requests and answers in turn, and a mark after each round. */
static void lay_polling(void)
{
    for (unsigned i = 0; has_room(&frames, 2 * LONGEST); i = (i + 1) % POLLS) {
        uint8_t out[LONGEST], address = (uint8_t)(i / 2);
        uint8_t request = i % 2 == 0 ? MFC_REQUEST_MEASURED_VALUE : MFC_REQUEST_GET_CALIBRATION;
        uint8_t reply = i % 2 == 0 ? MFC_REPLY_MEASURED_VALUE : MFC_REPLY_CALIBRATION;
        uint32_t value = i % 2 == 0 ? 0x41200000u + any(0x20000) : address % 8u;
        size_t n = plain_write_request(address, request, 0, out, sizeof out).length;

        lay_body(&frames, MFC_LOG_REQUEST, out, n);
        lay_crumbs(MFC_LOG_REQUEST, out, n);
        frames_bytes += n;
        n = plain_write_reply(address, request, 0, reply, value, NULL, 0, 0, out, sizeof out).length;
        lay_body(&frames, MFC_LOG_REPLY, out, n);
        lay_crumbs(MFC_LOG_REPLY, out, n);
        frames_bytes += n;
        if (i == POLLS - 1)
            lay_body(&frames, MFC_LOG_SILENCE, NULL, 0);
        if (i == POLLS - 1 && has_room(&crumbs, 0))
            lay_body(&crumbs, MFC_LOG_SILENCE, NULL, 0);
    }
}

/* Each is acknowledged. There are as many nodes as the board has places. */
static void lay_orders(void)
{
    while (has_room(&orders, 2 * LONGEST)) {
        uint8_t out[LONGEST], address = (uint8_t)any(PLACES);
        uint8_t request = any(2) == 0 ? MFC_REQUEST_VOLATILE_CALIBRATION : MFC_REQUEST_SET_CALIBRATION;
        uint32_t value = any(100);
        size_t n = plain_write_request(address, request, value, out, sizeof out).length;

        lay_body(&orders, MFC_LOG_REQUEST, out, n);
        n = plain_write_reply(address, request, value, MFC_REPLY_ACKNOWLEDGED, 0, NULL, 0, 0, out, sizeof out).length;
        lay_body(&orders, MFC_LOG_REPLY, out, n);
        if (++orders_count % 16 == 0)
            lay_body(&orders, MFC_LOG_SILENCE, NULL, 0);
    }
}

void lay_replays(void)
{
    for (size_t i = 0; i < MARKS; i++) {
        lay_body(&marks, MFC_LOG_SILENCE, NULL, 0);
        lay_body(&empties, i % 2 == 0 ? MFC_LOG_REQUEST : MFC_LOG_REPLY, NULL, 0);
    }
    lay_polling();
    lay_orders();
}

/* ---- the jobs ---- */

/* It is laid into each of the functions for library and plain C, so that the calls are direct ones. */
typedef mfc_listed replay_call(const uint8_t *, size_t, uint32_t, mfc_entry *, size_t);

static const struct log *replayed;

static inline void replay_log(replay_call *replay)
{
    static mfc_entry entries[PLACES];

    sink = replay(replayed->file, replayed->length, LEASE, entries, PLACES).count + entries[0].left;
}

static void replay_library(void) { replay_log(mfc_log_replay); }
static void replay_plain(void) { replay_log(plain_log_replay); }

static void measure_replay(const char *name, const char *unit, size_t units, const struct log *log)
{
    replayed = log;
    measure(name, unit, units, replay_library, replay_plain);
}

void measure_replays(void)
{
    measure_replay("replay a log of 21,666 silence marks", "record", marks.count, &marks);
    measure_replay("replay a log of 21,666 empty records", "record", empties.count, &empties);
    measure_replay("replay polling traffic, 65,000 bytes, in frames", "byte", frames_bytes, &frames);
    measure_replay("replay polling traffic, 65,000 bytes, in bytes", "byte", crumbs_bytes, &crumbs);
    measure_replay("replay orders that open and close entries", "reply", orders_count, &orders);
}

/* ---- the same answers ---- */

/* The answers that were met: entries, and each refusal there is. */
static struct { unsigned entries, refusals[24]; } met;

static mfc_entry one[LENT_PLACES], other[LENT_PLACES];

static mfc_listed compare_replay(const uint8_t *file, size_t length, uint32_t lease, size_t room)
{
    mfc_listed a, b;

    memset(one, 0xAA, sizeof one);
    memset(other, 0xAA, sizeof other);
    a = mfc_log_replay(file, length, lease, one, room);
    b = plain_log_replay(file, length, lease, other, room);
    compare(a.refusal == b.refusal && a.count == b.count && same_tables(one, other), "replay of a log");
    met.entries += b.count > 1;
    met.refusals[b.refusal]++;
    return a;
}

/* Mostly short ones, so that entries come to be due. */
static uint32_t any_lease(void)
{
    static const uint32_t leases[] = { 0, 65535, 65536, 65537, 0x80000001, 0xFFFFFFFF };

    return any(8) != 0 ? 1 + any(6) : leases[any(6)];
}

static size_t any_room(void)
{
    return any(4) != 0 ? PLACES : any(LENT_PLACES + 1);
}

/* The frame of a body without its checksum. */
static size_t lay_frame(uint8_t *out, const uint8_t *body, size_t n)
{
    uint8_t sum = 0;
    size_t at = 0;

    out[at++] = 0x7E;
    for (size_t i = 0; i <= n; i++) {
        uint8_t byte = i < n ? body[i] : (uint8_t)~sum;

        sum = (uint8_t)(sum + byte);
        if (byte == 0x7E || byte == 0x7D || byte == 0x11 || byte == 0x13) {
            out[at++] = 0x7D;
            byte ^= 0x20;
        }
        out[at++] = byte;
    }
    out[at++] = 0x7E;
    return at;
}

/* What a random log is made of: few nodes, so that entries are renewed and closed, or more than the board has places, and mostly openings;
   and the last request. */
static struct { uint32_t nodes, usual; uint8_t address, command; } last;

static uint8_t any_node(void)
{
    static const uint8_t others[] = { 0x11, 0x7E, 254, 255 };

    return any(12) != 0 ? (uint8_t)any(last.nodes) : others[any(4)];
}

static size_t any_request(uint8_t *out)
{
    /* command, L and the first bytes of the data: openings, closings, others, and some that are refused with 11, 12, 13 and 10 */
    static const uint8_t heads[][4] = {
        { 0x46, 4, 0, 0 }, { 0x46, 4, 0, 0x7E }, { 0x46, 4, 1, 0 }, { 0x45, 4, 0, 0 }, { 0x45, 4, 0, 0x11 }, { 0x45, 0, 0, 0 },
        { 0x08, 1, 1, 0 }, { 0xD0, 1, 0, 0 }, { 0x90, 1, 7, 0 }, { 0x00, 5, 1, 0x3F },
        { 0xD3, 0, 0, 0 }, { 0x46, 0, 0, 0 }, { 0x45, 1, 0, 0 }, { 0x90, 1, 255, 0 }, { 0x00, 5, 1, 0xFF },
    };
    const uint8_t *head = heads[any(any(3) != 0 ? last.usual : sizeof heads / sizeof heads[0])];
    uint8_t body[8] = { 0, 0, 0, 0, 0, 0xC0, 0, 0 };

    last.address = body[0] = any_node();
    last.command = head[0];
    memcpy(body + 1, head, 4);
    return lay_frame(out, body, 3u + head[1]);
}

/* Mostly to the last request, with an error code in some and data in others. */
static size_t any_reply(uint8_t *out)
{
    static const uint8_t states[] = { 0, 0, 0, 0x80, 0x80, 0x33, 0xB3 };
    uint8_t body[8] = { 0, 0, 0, 0, 0, 0, 0, 5 };
    int suits = any(6) != 0;

    body[0] = suits ? last.address : any_node();
    body[1] = suits ? last.command : (uint8_t)(0x45 + any(2));
    body[2] = states[any(sizeof states)];
    body[3] = any(8) != 0 ? 0 : 4;
    return lay_frame(out, body, 4u + body[3]);
}

/* Cut short, without its first byte, or with a byte wrong. */
static size_t damage(uint8_t *bytes, size_t n)
{
    switch (any(12)) {
    case 0: return any((uint32_t)n);
    case 1: memmove(bytes, bytes + 1, n - 1); return n - 1;
    case 2: bytes[any((uint32_t)n)] = (uint8_t)any(256); return n;
    case 3: bytes[any((uint32_t)n)] = 0x7E; return n;
    default: return n;
    }
}

/* Bytes of one side over some records, with marks and bytes of the other side between them. */
static void lay_side(struct log *log, uint8_t kind, int whole)
{
    uint8_t bytes[LONGEST];
    size_t n = kind == MFC_LOG_REQUEST ? any_request(bytes) : any_reply(bytes), at = 0;

    if (!whole)
        n = damage(bytes, n);
    do {
        size_t piece = whole || any(3) != 0 ? n - at : any((uint32_t)(n - at + 1));

        lay_body(log, kind, bytes + at, piece);
        at += piece;
        if (!whole && any(8) == 0)
            lay_body(log, MFC_LOG_SILENCE, NULL, 0);
        if (!whole && any(8) == 0)
            lay_side(log, kind == MFC_LOG_REQUEST ? MFC_LOG_REPLY : MFC_LOG_REQUEST, 1);
    } while (at < n);
}

static void compare_random(uint32_t nodes, uint32_t usual, unsigned turns)
{
    struct log log = { any_file, LOG_CLOSE, 0 };

    memset(any_file, 0, LOG_CLOSE);
    last.nodes = nodes;
    last.usual = usual;
    for (unsigned i = 0; i < turns; i++) {
        lay_side(&log, MFC_LOG_REQUEST, any(2) == 0);
        lay_side(&log, MFC_LOG_REPLY, any(2) == 0);
        if (any(4) == 0)
            lay_side(&log, (uint8_t)(MFC_LOG_REQUEST + any(2)), 0);
    }
    (void)compare_replay(log.file, log.length, any_lease(), any_room());
    for (unsigned i = 0; i < 4; i++) {
        /* Mostly a wrong kind, length, count or total; a wrong byte in a body is a good log too. */
        uint8_t *byte = &log.file[any(2) == 0 ? any((uint32_t)log.length) : log.length - 1 - any(LOG_CLOSE + LOG_TRAILER)];
        uint8_t kept = *byte;

        *byte = (uint8_t)any(any(2) == 0 ? 4 : 256);
        (void)compare_replay(log.file, log.length, any_lease(), any_room());
        *byte = kept;
    }
    (void)compare_replay(log.file, any((uint32_t)log.length), any_lease(), any_room());
}

static int is_entry(mfc_entry e, uint8_t address, uint16_t left)
{
    return e.kind == MFC_ENTRY_CALIBRATION && e.bus == MFC_BUS_SERIAL && e.address == address && e.left == left;
}

/* Controllers 7 and 9 get calibration 3 until a restart, with a mark between; then 7 gets it for good. */
static void compare_shown(void)
{
    static const uint8_t load7[] = { 0x7E, 0x07, 0x46, 4, 0, 0, 0, 3, 0xAB, 0x7E }, loaded7[] = { 0x7E, 0x07, 0x46, 0, 0, 0xB2, 0x7E };
    static const uint8_t load9[] = { 0x7E, 0x09, 0x46, 4, 0, 0, 0, 3, 0xA9, 0x7E }, loaded9[] = { 0x7E, 0x09, 0x46, 0, 0, 0xB0, 0x7E };
    static const uint8_t set7[] = { 0x7E, 0x07, 0x45, 4, 0, 0, 0, 3, 0xAC, 0x7E }, did7[] = { 0x7E, 0x07, 0x45, 0, 0, 0xB3, 0x7E };
    struct log log = { any_file, LOG_CLOSE, 0 };
    mfc_listed listed;

    memset(any_file, 0, LOG_CLOSE);
    listed = compare_replay(log.file, log.length, 5, 0);
    compare(listed.refusal == 0 && listed.count == 0, "replay of an empty log");
    lay_body(&log, MFC_LOG_REQUEST, load7, sizeof load7);
    lay_body(&log, MFC_LOG_REPLY, loaded7, sizeof loaded7);
    lay_body(&log, MFC_LOG_SILENCE, NULL, 0);
    lay_body(&log, MFC_LOG_REQUEST, load9, sizeof load9);
    lay_body(&log, MFC_LOG_REPLY, loaded9, sizeof loaded9);
    listed = compare_replay(log.file, log.length, 5, 2);
    compare(listed.refusal == 0 && listed.count == 2 && is_entry(one[0], 7, 4) && is_entry(one[1], 9, 5), "replay of two loads");
    listed = compare_replay(log.file, log.length, 5, 1);
    compare(listed.refusal == 1 && listed.count == 0, "replay without room");
    lay_body(&log, MFC_LOG_REQUEST, set7, sizeof set7);
    lay_body(&log, MFC_LOG_REPLY, did7, sizeof did7);
    lay_body(&log, MFC_LOG_SILENCE, NULL, 0);
    listed = compare_replay(log.file, log.length, 1, 1);
    compare(listed.refusal == 0 && listed.count == 1 && is_entry(one[0], 9, 0), "replay of a load that is due");
}

/* A log that is measured: it is served. */
static void compare_measured(const struct log *log, size_t entries)
{
    mfc_listed listed = compare_replay(log->file, log->length, LEASE, PLACES);

    compare(listed.refusal == 0 && (listed.count > 0) == (entries > 0), "replay of a measured log");
    for (unsigned i = 0; i < 20; i++) {
        uint8_t *byte = &log->file[any((uint32_t)log->length)], kept = *byte;

        *byte = (uint8_t)any(any(2) == 0 ? 4 : 256);
        (void)compare_replay(log->file, log->length, any_lease(), any_room());
        *byte = kept;
    }
}

void compare_replays(void)
{
    static const uint8_t refusals[] = { 0, 1, 12, 19, 20, 21, 22, 23 };

    compare_shown();
    for (unsigned i = 0; i < 20000; i++)
        compare_random(1 + any(8), 5, 1 + any(12));
    for (unsigned i = 0; i < 400; i++)
        compare_random(30 + any(40), 3 + any(2), 300);
    compare_measured(&marks, 0);
    compare_measured(&empties, 0);
    compare_measured(&frames, 0);
    compare_measured(&crumbs, 0);
    compare_measured(&orders, 1);
    for (size_t i = 0; i < sizeof refusals; i++)
        compare(met.refusals[refusals[i]] > 100, "a replay's answer that was not met");
    compare(met.entries > 1000, "replays with entries");
    (void)compare_replay(NULL, 0, 1, 0);
}

/* ---- the stack ---- */

void use_log_replay(void)
{
    const struct log *logs[] = { &marks, &empties, &frames, &crumbs, &orders };

    for (size_t i = 0; i < sizeof logs / sizeof logs[0]; i++) {
        sink = mfc_log_replay(logs[i]->file, logs[i]->length, LEASE, one, PLACES).count;
        sink = mfc_log_replay(logs[i]->file, logs[i]->length, LEASE, one, 0).count;
        sink = mfc_log_replay(logs[i]->file, logs[i]->length - 1, LEASE, one, PLACES).count;
        sink = mfc_log_replay(logs[i]->file, logs[i]->length, 0, one, PLACES).count;
    }
}
