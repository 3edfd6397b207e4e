#include "bench_log.h"

#include "bench.h"
#include "mfc.h"
#include "plain_log.h"
#include "traffic.h"

#include <string.h>

#define CLOSE LOG_CLOSE
#define TRAILER LOG_TRAILER
#define MOST 65000               /* bytes of all records */
#define MARKS (MOST / TRAILER)   /* the most records that a log can have */
#define SHORT 128                /* room for a log of three records and one more */
#define LONG_BODY 4096
#define NEWEST 24                /* rows of a list of the newest */
#define WINDOW 256               /* rows of a list in parts */
#define LENT 70000               /* more than any log has */

static uint8_t traffic_file[MFC_LOG_ROOM], longer_file[MFC_LOG_ROOM], marks_file[MFC_LOG_ROOM], large_file[MFC_LOG_ROOM];
static uint8_t empty_file[CLOSE + TRAILER + LONG_BODY], short_files[ROW][SHORT];
static struct log traffic = { traffic_file, CLOSE, 0 };
static struct log longer = { longer_file, CLOSE, 0 };
static struct log marks = { marks_file, CLOSE, 0 };
static struct log large = { large_file, CLOSE, 0 };
static struct log empty = { empty_file, CLOSE, 0 };
static struct log short_logs[ROW];
static uint8_t bytes[LENT];      /* of the bodies to be added */

/* ---- logs ---- */

static void put(uint8_t *at, size_t n, size_t value)
{
    while (n > 0) {
        at[--n] = (uint8_t)value;
        value >>= 8;
    }
}

static void lay_trailer(uint8_t *at, uint8_t kind, size_t n)
{
    at[0] = kind;
    put(at + 1, 2, n);
}

static void lay_close(uint8_t *file, size_t total, size_t count)
{
    put(file + total, 4, count);
    put(file + total + 4, 4, total);
}

/* The body of n bytes is there, in the place of the bytes that close the log. */
static void end_record(struct log *log, uint8_t kind, size_t n)
{
    lay_trailer(log->file + log->length - CLOSE + n, kind, n);
    log->length += n + TRAILER;
    log->count++;
    lay_close(log->file, log->length - CLOSE, log->count);
}

static void lay_record(struct log *log, uint8_t kind, size_t n)
{
    random_bytes(log->file + log->length - CLOSE, n);
    end_record(log, kind, n);
}

void lay_body(struct log *log, uint8_t kind, const uint8_t *body, size_t n)
{
    if (n > 0)
        memcpy(log->file + log->length - CLOSE, body, n);
    end_record(log, kind, n);
}

static void lay_request(struct log *log) { lay_record(log, MFC_LOG_REQUEST, 6 + any(3)); }
static void lay_reply(struct log *log) { lay_record(log, MFC_LOG_REPLY, 13 + any(8)); }

/* Requests and replies in turn, and a silence mark after some of them, while the longest of these have a place. */
static void lay_traffic(struct log *log, size_t most)
{
    while (log->length - CLOSE + 3 * TRAILER + 8 + 20 <= most) {
        lay_request(log);
        lay_reply(log);
        if (any(16) == 0)
            lay_record(log, MFC_LOG_SILENCE, 0);
    }
}

static void lay_short(struct log *log, uint8_t *file)
{
    log->file = file;
    log->length = CLOSE;
    lay_request(log);
    lay_reply(log);
    lay_request(log);
}

/* ---- the jobs ---- */

/* They are laid into each of the functions for library and plain C, so that the calls are direct ones. */
typedef mfc_written append_call(uint8_t *, size_t, size_t, uint8_t, const uint8_t *, size_t);
typedef mfc_words check_call(const uint8_t *, size_t);
typedef mfc_words list_call(const uint8_t *, size_t, size_t, uint16_t *, size_t);

static const struct log *checked;

static inline void check_log(check_call *check)
{
    sink = check(checked->file, checked->length).count;
}

static void check_library(void) { check_log(mfc_log_check); }
static void check_plain(void) { check_log(plain_log_check); }

static struct { const struct log *logs; size_t n, room, body; } growing;

/* Each log is as before when its call is done: of its bytes only those that close it were written over. */
static inline void append_row(append_call *append)
{
    size_t sum = 0;

    for (size_t i = 0; i < growing.n; i++) {
        const struct log *log = &growing.logs[i];
        uint8_t *close = log->file + log->length - CLOSE, kept[CLOSE];

        memcpy(kept, close, CLOSE);
        sum += append(log->file, growing.room, log->length, MFC_LOG_REQUEST, bytes, growing.body).length;
        memcpy(close, kept, CLOSE);
    }
    sink = sum;
}

static void append_library(void) { append_row(mfc_log_append); }
static void append_plain(void) { append_row(plain_log_append); }

static uint16_t window[MFC_LOG_ROW * WINDOW];

static inline void list_newest(list_call *list)
{
    sink = list(traffic.file, traffic.length, 0, window, MFC_LOG_ROW * NEWEST).count + window[0];
}

static void newest_library(void) { list_newest(mfc_log_list); }
static void newest_plain(void) { list_newest(plain_log_list); }

static inline void list_whole(list_call *list)
{
    size_t skip = 0, n;

    do {
        n = list(traffic.file, traffic.length, skip, window, MFC_LOG_ROW * WINDOW).count;
        skip += n;
    } while (n == WINDOW);
    sink = skip;
}

static void whole_library(void) { list_whole(mfc_log_list); }
static void whole_plain(void) { list_whole(plain_log_list); }

static void measure_check(const char *name, const struct log *log)
{
    checked = log;
    measure(name, "record", log->count, check_library, check_plain);
}

static void measure_append(const char *name, const struct log *logs, size_t n, size_t room, size_t body)
{
    growing.logs = logs;
    growing.n = n;
    growing.room = room;
    growing.body = body;
    measure(name, "call", n, append_library, append_plain);
}

void measure_logs(void)
{
    measure_check("check a log of polling traffic, 65,000 bytes", &traffic);
    measure_check("check a log of 21,666 empty records", &marks);
    measure_check("check a log of 256 records of 250 bytes", &large);
    measure_append("append 8 bytes to a log of 3 records", short_logs, ROW, SHORT, 8);
    measure_append("append 8 bytes to 60,000 bytes of polling traffic", &longer, 1, MFC_LOG_ROOM, 8);
    measure_append("append 4,096 bytes to an empty log", &empty, 1, sizeof empty_file, LONG_BODY);
    measure("list the newest 24 rows of polling traffic", "call", 1, newest_library, newest_plain);
    measure("list all polling traffic, 256 rows a call", "row", traffic.count, whole_library, whole_plain);
}

/* ---- the same answers ---- */

#define BEHIND 16                /* bytes or numbers behind the lent ones, to be left alone */

static uint8_t one[LENT + BEHIND], other[LENT + BEHIND];

static void compare_check(const uint8_t *file, size_t length)
{
    mfc_words a = mfc_log_check(file, length), b = plain_log_check(file, length);

    compare(a.refusal == b.refusal && a.count == b.count, "check of a log");
}

static void compare_list(const uint8_t *file, size_t length, size_t skip, size_t room)
{
    static uint16_t rows[MFC_LOG_ROW * MARKS + BEHIND], plain_rows[MFC_LOG_ROW * MARKS + BEHIND];
    size_t whole = (room + BEHIND) * sizeof rows[0];
    mfc_words a, b;

    memset(rows, 0xAA, whole);
    memset(plain_rows, 0xAA, whole);
    a = mfc_log_list(file, length, skip, rows, room);
    b = plain_log_list(file, length, skip, plain_rows, room);
    compare(a.refusal == b.refusal && a.count == b.count && memcmp(rows, plain_rows, whole) == 0, "list of a log");
}

static int same_written(mfc_written a, mfc_written b, size_t whole)
{
    return a.refusal == b.refusal && a.length == b.length && memcmp(one, other, whole) == 0;
}

/* The length may be past the room. */
static void compare_append(const uint8_t *file, size_t length, size_t room, uint8_t kind, size_t n)
{
    const uint8_t *body = n > 0 ? bytes : NULL;
    size_t whole = (length > room ? length : room) + BEHIND;

    memset(one, 0xAA, whole);
    memcpy(one, file, length);
    memcpy(other, one, whole);
    compare(same_written(mfc_log_append(one, room, length, kind, body, n), plain_log_append(other, room, length, kind, body, n),
                         whole), "append to a log");
}

static void compare_empty(void)
{
    for (size_t room = 0; room <= 2 * CLOSE; room++) {
        memset(one, 0xAA, room + BEHIND);
        memset(other, 0xAA, room + BEHIND);
        compare(same_written(mfc_log_empty(one, room), plain_log_empty(other, room), room + BEHIND), "empty log");
    }
}

/* One file to every function, with arguments that suit it and others that do not. */
static void compare_file(const uint8_t *file, size_t length)
{
    compare_check(file, length);
    for (size_t skip = 0; skip <= 4; skip++)
        compare_list(file, length, skip, any(5 * MFC_LOG_ROW));
    for (uint8_t kind = 0; kind <= 4; kind++) {
        size_t n = any(2) * any(20);

        compare_append(file, length, length + TRAILER + n - any(2), kind, n);
        compare_append(file, length, length + any(32), kind, any(2));
    }
    if (length > 0)
        compare_append(file, length, any((uint32_t)length), MFC_LOG_REQUEST, any(2));
}

/* Each bit of a short log wrong, and each length up to some bytes past its end. */
static void compare_spoilt(const struct log *log)
{
    uint8_t file[SHORT];

    memset(file, 0, sizeof file);
    memcpy(file, log->file, log->length);
    for (size_t length = 0; length <= log->length + CLOSE; length++)
        compare_file(file, length);
    for (size_t bit = 0; bit < 8 * log->length; bit++) {
        file[bit / 8] = (uint8_t)(file[bit / 8] ^ 1u << bit % 8);
        compare_file(file, log->length);
        file[bit / 8] = (uint8_t)(file[bit / 8] ^ 1u << bit % 8);
    }
}

/* Every file with so many bytes of records, each of them 0 to 4: kinds, lengths and bodies that follow on each other in all ways,
   and counts that are right and wrong. */
static void compare_every(size_t total)
{
    uint8_t file[SHORT] = { 0 };
    size_t place;

    do {
        for (size_t count = 0; count <= 3; count++) {
            lay_close(file, total, count);
            compare_check(file, total + CLOSE);
            compare_list(file, total + CLOSE, any(3), any(3 * MFC_LOG_ROW));
        }
        for (place = 0; place < total && file[place] == 4; place++)
            file[place] = 0;
        if (place < total)
            file[place]++;
    } while (place < total);
}

/* Totals around 65,000, and those whose low 16 bits are small again. */
static void compare_limits(void)
{
    static uint8_t file[LENT];

    for (size_t total = MOST - 20; total < 65536 + 20; total++) {
        lay_trailer(file + total - TRAILER, MFC_LOG_REPLY, total - TRAILER);
        lay_close(file, total, 1);
        compare_check(file, total + CLOSE);
        compare_list(file, total + CLOSE, 0, MFC_LOG_ROW);
        for (size_t n = 0; n <= 20 && total <= MOST + 1; n++) {
            compare_append(file, total + CLOSE, total + CLOSE + TRAILER + n - any(2), MFC_LOG_REQUEST, n);
            compare_append(file, total + CLOSE, total + CLOSE + TRAILER + n - any(2), MFC_LOG_SILENCE, n);
        }
        compare_append(empty.file, empty.length, total + CLOSE - any(2), MFC_LOG_REPLY, total - TRAILER);
    }
}

/* From the first record on until one is refused. */
static void compare_series(void)
{
    size_t length = CLOSE;
    int more = 1;

    memset(one, 0xAA, sizeof one);
    memset(other, 0xAA, sizeof other);
    compare(same_written(mfc_log_empty(one, LENT), plain_log_empty(other, LENT), sizeof one), "empty log");
    while (more) {
        uint8_t kind = (uint8_t)(1 + any(3));
        size_t n = kind == MFC_LOG_SILENCE ? 0 : any(any(8) == 0 ? 2000 : 40);
        const uint8_t *body = bytes + any(1000);
        mfc_written a = mfc_log_append(one, LENT, length, kind, body, n), b = plain_log_append(other, LENT, length, kind, body, n);

        compare(same_written(a, b, sizeof one), "append to a log");
        more = a.refusal == 0 && a.length == length + TRAILER + n && b.refusal == 0;
        length = more ? a.length : length;
    }
    compare_check(one, length);
    compare_list(one, length, 0, MFC_LOG_ROW * MARKS);
}

/* A log that is measured: it is good, every part of it is listed, and damage anywhere in it is answered alike. */
static void compare_measured(const struct log *log)
{
    static const size_t rooms[] = { 0, 1, 2, 3, 5, MFC_LOG_ROW * NEWEST, MFC_LOG_ROW * WINDOW, MFC_LOG_ROW * MARKS };
    const size_t skips[] = { 0, 1, log->count / 2, log->count - 1, log->count, log->count + 1, SIZE_MAX };
    mfc_words a = mfc_log_check(log->file, log->length);

    compare(a.refusal == 0 && a.count == log->count, "check of a good log");
    compare_file(log->file, log->length);
    for (size_t s = 0; s < sizeof skips / sizeof skips[0]; s++)
        for (size_t r = 0; r < sizeof rooms / sizeof rooms[0]; r++)
            compare_list(log->file, log->length, skips[s], rooms[r]);
    for (size_t skip = 0; skip < log->count; skip += WINDOW)
        compare_list(log->file, log->length, skip, MFC_LOG_ROW * WINDOW);
    for (unsigned i = 0; i < 200; i++) {
        uint8_t *byte = &log->file[any((uint32_t)log->length)], kept = *byte;

        *byte = (uint8_t)any(any(2) == 0 ? 4 : 256);
        compare_check(log->file, log->length);
        *byte = kept;
    }
}

/* The log that document 02 shows. */
static void compare_shown(void)
{
    static const uint8_t shown[] = { 0x7E, 0, 0x45, 0, 0xBA, 0x7E, 1, 0, 6, 0, 0, 0, 1, 0, 0, 0, 9 };
    mfc_written a = mfc_log_empty(one, sizeof shown), b = plain_log_empty(other, sizeof shown);

    a = mfc_log_append(one, sizeof shown, a.length, MFC_LOG_REQUEST, shown, 6);
    b = plain_log_append(other, sizeof shown, b.length, MFC_LOG_REQUEST, shown, 6);
    compare(same_written(a, b, sizeof shown) && a.length == sizeof shown && memcmp(one, shown, sizeof shown) == 0,
            "log of one record");
}

void compare_logs(void)
{
    compare_shown();
    compare_empty();
    compare_measured(&traffic);
    compare_measured(&longer);
    compare_measured(&marks);
    compare_measured(&large);
    compare_measured(&empty);
    for (size_t i = 0; i < ROW; i++) {
        compare_measured(&short_logs[i]);
        compare_spoilt(&short_logs[i]);
    }
    compare_append(empty.file, empty.length, sizeof empty_file, MFC_LOG_REQUEST, LONG_BODY);
    for (size_t total = 0; total <= 7; total++)
        compare_every(total);
    compare_limits();
    for (unsigned i = 0; i < 8; i++)
        compare_series();
    compare_check(NULL, 0);
}

/* ---- the stack ---- */

/* Good logs, and short ones that are refused with 20 to 23. */
#define USED 8

static struct log used[USED];
static uint8_t refused_files[4][SHORT];

void use_log_empty(void)
{
    for (size_t room = 0; room <= SHORT; room += CLOSE)
        sink = mfc_log_empty(one, room).length;
}

void use_log_append(void)
{
    for (size_t u = 0; u < USED; u++)
        for (uint8_t kind = 0; kind <= 3; kind++)
            for (size_t n = 0; n <= LONG_BODY; n += LONG_BODY / 4) {
                memcpy(one, used[u].file, used[u].length);
                sink = mfc_log_append(one, 1, used[u].length, kind, bytes, n).length;
                sink = mfc_log_append(one, used[u].length, used[u].length, kind, bytes, n).length;
                sink = mfc_log_append(one, LENT, used[u].length, kind, bytes, n).length;
            }
}

void use_log_check(void)
{
    for (size_t u = 0; u < USED; u++)
        sink = mfc_log_check(used[u].file, used[u].length).count;
}

void use_log_list(void)
{
    for (size_t u = 0; u < USED; u++)
        for (size_t skip = 0; skip <= WINDOW; skip += WINDOW / 2)
            for (size_t room = 0; room <= MFC_LOG_ROW * WINDOW; room += WINDOW)
                sink = mfc_log_list(used[u].file, used[u].length, skip, window, room).count;
}

static void lay_used(void)
{
    const struct log *log = &short_logs[0];
    size_t total = log->length - CLOSE;

    used[0] = traffic;
    used[1] = marks;
    used[2] = empty;
    used[3] = *log;
    for (size_t i = 0; i < 4; i++) {
        used[4 + i] = *log;
        used[4 + i].file = refused_files[i];
        memcpy(refused_files[i], log->file, log->length);
    }
    refused_files[0][total + 7]++;              /* the total */
    refused_files[1][total - 2] = 0xFF;         /* the length of the newest body */
    refused_files[2][total - TRAILER] = 4;      /* its kind */
    refused_files[3][total + 3]++;              /* the count */
}

void lay_logs(void)
{
    lay_traffic(&traffic, MOST);
    lay_traffic(&longer, 60000);
    for (size_t i = 0; i < MARKS; i++)
        lay_record(&marks, MFC_LOG_SILENCE, 0);
    for (size_t i = 0; i < 256; i++)
        lay_record(&large, i % 2 == 0 ? MFC_LOG_REQUEST : MFC_LOG_REPLY, 250);
    for (size_t i = 0; i < ROW; i++)
        lay_short(&short_logs[i], short_files[i]);
    random_bytes(bytes, sizeof bytes);
    lay_used();
}
