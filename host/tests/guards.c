/*
 * Every exported function, called from C with each lent slice hard against memory that may not be touched.
 *
 * The same calls are made three times: with each slice flush against the page after it, flush against the page before
 * it, and as a heap block of its exact size (for AddressSanitizer and valgrind). Pages before and after may neither be
 * read nor written; what is left of a slice's own pages holds a pattern that must stand. All three runs must give the
 * same answers and leave the same bytes.
 *
 * usage: guards NAME ROUNDS [SEED]; the name stands before the summary.
 */
#define _GNU_SOURCE
#include <signal.h>
#include <stddef.h>
#include <stdint.h>
#include <stdio.h>
#include <stdlib.h>
#include <string.h>
#include <sys/mman.h>
#include <unistd.h>

#include "commands.h"

/* Declared once more: a header that says otherwise does not compile. */
uint8_t mfc_checksum(const uint8_t *bytes, size_t n);
uint8_t mfc_crc(uint8_t start, const uint8_t *bytes, size_t n);
mfc_written mfc_write_request(uint8_t address, uint8_t request, uint32_t value, uint8_t *out, size_t room);
mfc_written mfc_write_request_at(uint8_t *buffer, size_t size, size_t start, uint8_t address, uint8_t request,
                                 uint32_t value);
mfc_request mfc_read_request(const uint8_t *body, size_t n);
mfc_written mfc_write_reply(uint8_t address, uint8_t request, uint32_t value, uint8_t reply, uint32_t reply_value,
                            const uint8_t *text, size_t n, uint8_t bit7, uint8_t *out, size_t room);
mfc_reply mfc_read_reply(uint8_t address, uint8_t request, uint32_t value, const uint8_t *body, size_t n);
uint8_t mfc_receiver_fresh(uint8_t kind, uint8_t *record, size_t size);
mfc_fed mfc_feed(uint8_t *record, size_t size, uint8_t silence, const uint8_t *piece, size_t n, uint8_t *frame,
                 size_t room);
mfc_noise mfc_receiver_noise(const uint8_t *record, size_t size);
mfc_words mfc_read_words(uint8_t start, const uint8_t *bytes, size_t n, uint16_t *words, size_t room);
mfc_written mfc_write_words(uint8_t start, const uint16_t *words, size_t n, uint8_t *out, size_t room);
mfc_written mfc_write_sfc6(uint16_t code, uint32_t concentration, uint8_t *out, size_t room);
mfc_written mfc_write_liquid(uint8_t code, uint16_t value, uint8_t *out, size_t room);
mfc_register mfc_edit_user(uint16_t value, uint32_t field);
mfc_register mfc_edit_advanced(uint16_t value, uint32_t field);
mfc_thousandths mfc_scaled(int16_t raw, int16_t offset, int32_t scale);
mfc_quantity mfc_scaled_float(int16_t raw, int16_t offset, int32_t scale);
uint8_t mfc_board_open(mfc_entry *table, size_t places, uint8_t bus, uint8_t address, uint8_t kind, uint32_t lease);
uint8_t mfc_board_close(mfc_entry *table, size_t places, uint8_t bus, uint8_t address, uint8_t kind);
uint8_t mfc_board_restart(mfc_entry *table, size_t places, uint8_t bus, uint8_t address);
uint8_t mfc_board_poll(mfc_entry *table, size_t places);
mfc_listed mfc_board_list(const mfc_entry *table, size_t places, mfc_entry *entries, size_t room);
uint8_t mfc_board_reply(mfc_entry *table, size_t places, uint8_t address, uint8_t request, uint8_t refusal,
                        uint32_t lease);
uint8_t mfc_board_acknowledged(mfc_entry *table, size_t places, uint8_t address, uint16_t code, uint32_t lease);
mfc_written mfc_log_empty(uint8_t *file, size_t room);
mfc_written mfc_log_append(uint8_t *file, size_t room, size_t length, uint8_t kind, const uint8_t *body, size_t n);
mfc_words mfc_log_check(const uint8_t *file, size_t length);
mfc_words mfc_log_list(const uint8_t *file, size_t length, size_t skip, uint16_t *rows, size_t room);
mfc_listed mfc_log_replay(const uint8_t *file, size_t length, uint32_t lease, mfc_entry *entries, size_t room);

/* Both engines of mfc_crc, from a library of their own. */
uint8_t engine_plain(uint8_t start, const uint8_t *bytes, size_t n);
uint8_t engine_table(uint8_t start, const uint8_t *bytes, size_t n);

_Static_assert(offsetof(mfc_reply, value) == 4, "four bytes stand before the value");
_Static_assert(offsetof(mfc_fed, place) == 2 && offsetof(mfc_fed, frame_length) == sizeof(size_t),
               "the place of a fault stands between the refusal and the lengths");
_Static_assert(sizeof(mfc_noise) == 8 && offsetof(mfc_noise, count) == 4, "a refusal and a count of four bytes");
_Static_assert(offsetof(mfc_register, value) == 2, "the register's value follows the refusal");
_Static_assert(sizeof(mfc_quantity) == 8, "a refusal and a float");
_Static_assert(sizeof(mfc_entry) == 6 && offsetof(mfc_entry, left) == 4, "three bytes, a free one, and the polls left");
_Static_assert(offsetof(mfc_listed, count) == sizeof(size_t), "a list's count stands where that of words does");

enum { SLOTS = 3, LARGEST = 4096 };

/* ---- Random numbers: the same in every placement */

static uint64_t state;

static uint32_t any(void)
{
    state ^= state << 13;
    state ^= state >> 7;
    state ^= state << 17;
    return (uint32_t)((state * UINT64_C(0x2545F4914F6CDD1D)) >> 32);
}

static size_t below(size_t n)
{
    return any() % n;
}

static uint8_t wire_byte(void)
{
    static const uint8_t special[] = {0x7E, 0x7D, 0x11, 0x13, 0x5E, 0x5D, 0x31, 0x33};
    return below(2) ? special[below(sizeof special)] : (uint8_t)any();
}

static void wire_bytes(uint8_t *bytes, size_t n)
{
    for (size_t i = 0; i < n; i++) {
        bytes[i] = wire_byte();
    }
}

/* ---- Lending */

enum placement { AT_END, AT_START, HEAP, PLACEMENTS };
static const char *const placement_names[] = {"against the end", "against the start", "on the heap"};

static enum placement placement;
static uint8_t *slots[SLOTS]; /* the pages of each slot; the page before and the page after may not be touched */
static uint8_t *pattern;      /* what those pages hold outside a lent slice */
static size_t pages_length;
static const char *volatile function = "none";
static volatile unsigned long cases;
static uint64_t digest;

struct lent {
    int slot;
    uint8_t *bytes;
    size_t length;
};

static void fail(const char *what)
{
    printf("FAILED %s, %s, case %lu: %s\n", function, placement_names[placement], cases, what);
    exit(1);
}

static void on_fault(int signal_number, siginfo_t *info, void *context)
{
    char text[256];
    (void)signal_number;
    (void)context;
    int n = snprintf(text, sizeof text, "FAILED %s, slices %s, case %lu: touched %p, outside what was lent\n", function,
                     placement_names[placement], cases, info->si_addr);
    ssize_t ignored = write(STDOUT_FILENO, text, (size_t)n);
    (void)ignored;
    _exit(1);
}

static void make_slots(void)
{
    size_t page = (size_t)sysconf(_SC_PAGESIZE);
    pages_length = (LARGEST + page - 1) / page * page;
    pattern = malloc(pages_length);
    for (size_t i = 0; i < pages_length; i++) {
        pattern[i] = (uint8_t)(i * 29 + 0xA5);
    }
    for (int i = 0; i < SLOTS; i++) {
        uint8_t *whole = mmap(NULL, pages_length + 2 * page, PROT_NONE, MAP_PRIVATE | MAP_ANONYMOUS, -1, 0);
        if (whole == MAP_FAILED || mprotect(whole + page, pages_length, PROT_READ | PROT_WRITE) != 0) {
            perror("guards: no pages");
            exit(2);
        }
        slots[i] = whole + page;
    }
}

/* A slice of exactly n bytes: what is given, or a pattern where nothing is. */
static struct lent lend(int slot, const void *contents, size_t n)
{
    struct lent lent = {slot, NULL, n};
    if (placement == HEAP) {
        lent.bytes = malloc(n);
    } else {
        memcpy(slots[slot], pattern, pages_length);
        /* An empty slice is the untouchable page itself, or NULL. */
        lent.bytes = placement == AT_END ? slots[slot] + pages_length - n : n > 0 ? slots[slot] : NULL;
    }
    if (n > 0) {
        memcpy(lent.bytes, contents != NULL ? contents : pattern, n);
    }
    return lent;
}

static void fold(uint64_t number)
{
    digest = (digest ^ number) * UINT64_C(0x100000001B3) + 1;
}

/* Takes a slice back: its bytes go into the digest, and the rest of its pages must be as it was. */
static void take_back(struct lent lent)
{
    for (size_t i = 0; i < lent.length; i++) {
        fold(lent.bytes[i]);
    }
    if (placement == HEAP) {
        free(lent.bytes);
        return;
    }
    size_t before = placement == AT_END ? pages_length - lent.length : 0;
    size_t end = before + lent.length;
    const uint8_t *slot = slots[lent.slot];
    if (memcmp(slot, pattern, before) != 0 || memcmp(slot + end, pattern + end, pages_length - end) != 0) {
        fail("a byte beside a lent slice was changed");
    }
}

static void begin(const char *name)
{
    function = name;
    cases++;
}

/* ---- The functions, each with slices of the sizes given */

static mfc_written write_request(uint8_t address, uint8_t request, uint32_t value, uint8_t *copy, size_t room)
{
    begin("mfc_write_request");
    struct lent out = lend(0, NULL, room);
    mfc_written written = mfc_write_request(address, request, value, out.bytes, room);
    if (copy != NULL && written.refusal == 0) {
        memcpy(copy, out.bytes, written.length);
    }
    fold(written.refusal);
    fold(written.length);
    take_back(out);
    return written;
}

static void write_request_at(size_t size, size_t start)
{
    begin("mfc_write_request_at");
    struct lent buffer = lend(0, NULL, size);
    uint8_t request = (uint8_t)below(REQUESTS + 1);
    mfc_written written = mfc_write_request_at(buffer.bytes, size, start, wire_byte(), request, any() & 1);
    fold(written.refusal);
    fold(written.length);
    take_back(buffer);
}

/* A text without a 00. Of some a fourth of the bytes is special, of others so few that runs of plain bytes are longer
 * than any block in which they may be looked at. */
static void text_bytes(uint8_t *bytes, size_t n)
{
    size_t share = below(2) ? 1 : 40;
    for (size_t i = 0; i < n; i++) {
        uint8_t byte = below(share) == 0 ? wire_byte() : (uint8_t)any();
        bytes[i] = byte != 0 ? byte : 'A';
    }
}

/* The same text and address make the same frame, so that its length is also what it needs. */
static mfc_written write_reply(uint8_t address, uint8_t request, uint8_t reply, const uint8_t *contents,
                               size_t text_length, uint8_t *copy, size_t room)
{
    begin("mfc_write_reply");
    struct lent text = lend(0, contents, text_length);
    struct lent out = lend(1, NULL, room);
    mfc_written written = mfc_write_reply(address, request, 1, reply, 1, text.bytes, text_length, address & 1, out.bytes,
                                          room);
    if (copy != NULL && written.refusal == 0) {
        memcpy(copy, out.bytes, written.length);
    }
    fold(written.refusal);
    fold(written.length);
    take_back(text);
    take_back(out);
    return written;
}

static void read_bodies(const uint8_t *contents, size_t n)
{
    struct lent body = lend(0, contents, n);
    begin("mfc_checksum");
    fold(mfc_checksum(body.bytes, n));
    uint8_t start = (uint8_t)any();
    begin("mfc_crc");
    fold(mfc_crc(start, body.bytes, n));
    begin("engine_plain");
    fold(engine_plain(start, body.bytes, n));
    begin("engine_table");
    fold(engine_table(start, body.bytes, n));
    begin("mfc_read_request");
    mfc_request request = mfc_read_request(body.bytes, n);
    fold(request.refusal);
    fold(request.address);
    fold(request.request);
    fold(request.value);
    begin("mfc_read_reply");
    uint8_t address = n > 0 ? contents[0] : 0;
    mfc_reply reply = mfc_read_reply(address, (uint8_t)below(REQUESTS + 1), 1, body.bytes, n);
    fold(reply.refusal);
    fold(reply.code);
    fold(reply.bit7);
    fold(reply.reply);
    fold(reply.value);
    fold(reply.text_start);
    fold(reply.text_length);
    if (reply.text_start + reply.text_length > n) {
        fail("a text that is not in the body");
    }
    take_back(body);
}

/* One call on so many bytes of the record given, which comes back changed as the library changes it. */
static mfc_fed feed_in(uint8_t *record, size_t size, uint8_t silence, const uint8_t *contents, size_t n, uint8_t *copy,
                       size_t room)
{
    begin("mfc_feed");
    struct lent kept = lend(0, record, size);
    struct lent piece = lend(1, contents, n);
    struct lent frame = lend(2, NULL, room);
    mfc_fed fed = mfc_feed(kept.bytes, size, silence, piece.bytes, n, frame.bytes, room);
    int refused = fed.refusal == MFC_REFUSAL_NO_ROOM || fed.refusal == MFC_REFUSAL_BAD_RECORD;
    if (fed.taken > n || fed.frame_length > room) {
        fail("more than was lent");
    }
    if ((size < MFC_RECORD_SIZE && fed.refusal != MFC_REFUSAL_BAD_RECORD) || (room < MFC_FRAME_ROOM && !refused)) {
        fail("a call without a record or without room");
    }
    if (refused && size > 0 && memcmp(kept.bytes, record, size) != 0) {
        fail("a refused call changed the record");
    }
    if (fed.taken > 0 && (refused || fed.refusal == MFC_REFUSAL_CUT_BY_SILENCE)) {
        fail("a byte taken by a call that takes none");
    }
    if (silence == 0 && fed.refusal == MFC_REFUSAL_CUT_BY_SILENCE) {
        fail("cut off without silence");
    }
    if (room > 0 && memcmp(frame.bytes + fed.frame_length, pattern + fed.frame_length, room - fed.frame_length) != 0) {
        fail("room past the frame was changed");
    }
    if (n > 0 && memcmp(piece.bytes, contents, n) != 0) {
        fail("a piece was changed");
    }
    if (fed.place != 0 && fed.refusal != MFC_REFUSAL_BAD_ESCAPE && fed.refusal != MFC_REFUSAL_BARE_CONTROL) {
        fail("a place without a fault");
    }
    if (size > 0) {
        memcpy(record, kept.bytes, size);
    }
    if (fed.frame_length > 0) {
        memcpy(copy, frame.bytes, fed.frame_length);
    }
    fold(fed.refusal);
    fold(fed.place);
    fold(fed.frame_length);
    fold(fed.taken);
    take_back(kept);
    take_back(piece);
    take_back(frame);
    return fed;
}

static mfc_fed feed(uint8_t *record, uint8_t silence, const uint8_t *contents, size_t n, uint8_t *copy, size_t room)
{
    return feed_in(record, MFC_RECORD_SIZE, silence, contents, n, copy, room);
}

/* Silence before no bytes: none of them are there to be read, and 9 is all that it may give. */
static void silence_alone(uint8_t *record, size_t size, size_t room)
{
    uint8_t none[MFC_FRAME_ROOM];
    mfc_fed fed = feed_in(record, size, (uint8_t)(1 + below(255)), NULL, 0, none, room);
    if (fed.frame_length > 0 || (fed.refusal > MFC_REFUSAL_BAD_RECORD && fed.refusal != MFC_REFUSAL_CUT_BY_SILENCE)) {
        fail("an item of no bytes");
    }
    int dealt_with = fed.refusal == 0 || fed.refusal == MFC_REFUSAL_CUT_BY_SILENCE;
    if (dealt_with && (record[1] != 0 || record[2] != 0 || record[3] != 0)) {
        fail("silence left a stretch open");
    }
}

/* The count of noise in bytes that are only read. */
static uint32_t noise_in(const uint8_t *record, size_t size)
{
    begin("mfc_receiver_noise");
    struct lent kept = lend(0, record, size);
    mfc_noise noise = mfc_receiver_noise(kept.bytes, size);
    if (size > 0 && memcmp(kept.bytes, record, size) != 0) {
        fail("asking for the noise changed the record");
    }
    if ((size < MFC_RECORD_SIZE && noise.refusal == 0) || (noise.refusal != 0 && noise.count != 0)) {
        fail("a count without a record");
    }
    fold(noise.refusal);
    fold(noise.count);
    take_back(kept);
    return noise.count;
}

static void fresh(uint8_t kind, uint8_t *record, size_t size)
{
    begin("mfc_receiver_fresh");
    struct lent kept = lend(0, record, size);
    fold(mfc_receiver_fresh(kind, kept.bytes, size));
    if (size > 0) {
        memcpy(record, kept.bytes, size);
    }
    take_back(kept);
}

static void words(size_t n, size_t room, int spoilt)
{
    uint16_t values[64];
    uint8_t bytes[3 * 64];
    uint8_t start = below(2) ? MFC_START_SFC6 : MFC_START_LIQUID;
    for (size_t i = 0; i < n; i++) {
        values[i] = (uint16_t)any();
    }
    begin("mfc_write_words");
    struct lent list = lend(0, values, 2 * n);
    struct lent out = lend(1, NULL, 3 * n);
    mfc_written written = mfc_write_words(start, (const uint16_t *)(const void *)list.bytes, n, out.bytes, 3 * n);
    fold(written.refusal);
    fold(written.length);
    if (n > 0) {
        memcpy(bytes, out.bytes, 3 * n);
    }
    take_back(list);
    take_back(out);
    if (spoilt && n > 0) {
        bytes[below(3 * n)] ^= 1;
    }
    begin("mfc_read_words");
    struct lent read = lend(0, bytes, 3 * n);
    struct lent store = lend(1, NULL, 2 * room);
    mfc_words answer = mfc_read_words(start, read.bytes, 3 * n, (uint16_t *)(void *)store.bytes, room);
    fold(answer.refusal);
    fold(answer.count);
    take_back(read);
    take_back(store);
}

static void i2c_commands(void)
{
    /* The last of each is one that is refused. */
    static const uint16_t codes[] = {MFC_SFC6_POINT_TO_TEMPERATURE, MFC_SFC6_POINT_BACK, MFC_SFC6_SET_CONCENTRATION,
                                     MFC_SFC6_START_MIXTURE0, MFC_SFC6_START_MIXTURE1, MFC_SFC6_SHUT_VALVE,
                                     MFC_SFC6_NORMAL_CONTROL, 0x3661};
    static const uint8_t liquid[] = {MFC_LIQUID_WRITE_USER, MFC_LIQUID_READ_USER, MFC_LIQUID_WRITE_ADVANCED,
                                     MFC_LIQUID_READ_ADVANCED, MFC_LIQUID_FLOW, MFC_LIQUID_TEMPERATURE, MFC_LIQUID_SUPPLY,
                                     MFC_LIQUID_RESET, 0xFA};
    for (size_t room = 0; room < 7; room++) {
        begin("mfc_write_sfc6");
        struct lent out = lend(0, NULL, room);
        mfc_written written = mfc_write_sfc6(codes[below(sizeof codes / sizeof codes[0])], any() % 1002, out.bytes, room);
        fold(written.refusal);
        fold(written.length);
        take_back(out);
        begin("mfc_write_liquid");
        out = lend(0, NULL, room);
        written = mfc_write_liquid(liquid[below(sizeof liquid)], (uint16_t)any(), out.bytes, room);
        fold(written.refusal);
        fold(written.length);
        take_back(out);
    }
}

static void numbers(void)
{
    begin("mfc_edit_user");
    mfc_register edited = mfc_edit_user((uint16_t)any(), any() % 8);
    fold(edited.refusal);
    fold(edited.value);
    begin("mfc_edit_advanced");
    edited = mfc_edit_advanced((uint16_t)any(), any() % 9);
    fold(edited.refusal);
    fold(edited.value);
    int16_t raw = (int16_t)any(), offset = (int16_t)any();
    int32_t scale = (int32_t)(any() % 32770);
    begin("mfc_scaled");
    mfc_thousandths thousandths = mfc_scaled(raw, offset, scale);
    fold(thousandths.refusal);
    fold((uint32_t)thousandths.value);
    begin("mfc_scaled_float");
    mfc_quantity quantity = mfc_scaled_float(raw, offset, scale);
    uint32_t bits;
    memcpy(&bits, &quantity.value, sizeof bits);
    fold(quantity.refusal);
    fold(bits);
}

/* ---- The handover board: tables of any number of places, each lent as its bytes */

enum { PLACE = sizeof(mfc_entry), MOST_PLACES = 64, FREE_BYTE = 3 };

static mfc_entry *places_of(struct lent lent)
{
    return (mfc_entry *)(void *)lent.bytes;
}

static uint8_t an_address(void)
{
    static const uint8_t ends[] = {0, 127, 128, 254, 255};
    return below(16) ? (uint8_t)below(20) : ends[below(sizeof ends)];
}

static uint32_t a_lease(void)
{
    return below(16) ? 1 + (uint32_t)below(30) : any() >> below(32);
}

/* One order on a table: mostly one that opens an entry, since all places are to be held now and then. */
static uint8_t give_order(mfc_entry *table, size_t places)
{
    static const uint16_t codes[] = {MFC_SFC6_SHUT_VALVE, MFC_SFC6_NORMAL_CONTROL, MFC_SFC6_POINT_BACK, 0x3FE4};
    uint8_t bus = (uint8_t)(below(32) ? below(2) : any()), kind = (uint8_t)(below(32) ? 1 + below(2) : any());
    uint8_t address = an_address();
    uint32_t lease = a_lease();
    switch (below(16)) {
    case 0:
        begin("mfc_board_close");
        return mfc_board_close(table, places, bus, address, kind);
    case 1:
        begin("mfc_board_restart");
        return mfc_board_restart(table, places, bus, address);
    case 2:
    case 3:
        begin("mfc_board_poll");
        return mfc_board_poll(table, places);
    case 4:
        begin("mfc_board_reply");
        return mfc_board_reply(table, places, address, (uint8_t)below(REQUESTS + 1), (uint8_t)below(2), lease);
    case 5:
    case 6:
        begin("mfc_board_reply");
        return mfc_board_reply(table, places, address, MFC_REQUEST_VOLATILE_CALIBRATION, 0, lease);
    case 7:
        begin("mfc_board_acknowledged");
        return mfc_board_acknowledged(table, places, address, codes[below(sizeof codes / sizeof codes[0])], lease);
    case 8:
    case 9:
        begin("mfc_board_acknowledged");
        return mfc_board_acknowledged(table, places, address, MFC_SFC6_SHUT_VALVE, lease);
    default:
        begin("mfc_board_open");
        return mfc_board_open(table, places, bus, address, kind, lease);
    }
}

/* The table comes back changed as the library changes it. */
static void order(uint8_t *table, size_t places)
{
    struct lent lent = lend(0, table, places * PLACE);
    uint8_t refusal = give_order(places_of(lent), places);
    if (lent.length > 0) {
        if (refusal != 0 && memcmp(lent.bytes, table, lent.length) != 0) {
            fail("a refusal changed the table");
        }
        memcpy(table, lent.bytes, lent.length);
    }
    fold(refusal);
    take_back(lent);
}

static void list(const uint8_t *table, size_t places, size_t room)
{
    begin("mfc_board_list");
    struct lent lent = lend(0, table, places * PLACE);
    struct lent entries = lend(1, NULL, room * PLACE);
    mfc_listed listed = mfc_board_list(places_of(lent), places, places_of(entries), room);
    if (listed.count > room) {
        fail("more than was lent");
    }
    if (places > 0 && memcmp(lent.bytes, table, lent.length) != 0) {
        fail("a list changed the table");
    }
    size_t used = listed.count * PLACE;
    if (room > 0 && memcmp(entries.bytes + used, pattern + used, entries.length - used) != 0) {
        fail("a list changed room past its entries");
    }
    fold(listed.refusal);
    fold(listed.count);
    take_back(lent);
    take_back(entries);
}

/* Orders from the empty table about a few nodes, other sizes and lists between them; then places of any bytes. */
static void board(void)
{
    uint8_t table[MOST_PLACES * PLACE] = {0};
    for (size_t at = FREE_BYTE; at < sizeof table; at += PLACE) {
        table[at] = (uint8_t)any();
    }
    for (int orders = 0; orders < 90; orders++) {
        order(table, MFC_BOARD_PLACES);
        if (below(12) == 0) {
            order(table, below(MOST_PLACES + 1));
            list(table, below(4) ? MFC_BOARD_PLACES : below(MOST_PLACES + 1), below(MFC_BOARD_PLACES + 9));
        }
    }
    list(table, MFC_BOARD_PLACES, MFC_BOARD_PLACES);
    for (int spoilt = 0; spoilt < 3; spoilt++) {
        table[below(MFC_BOARD_PLACES * PLACE)] = (uint8_t)any();
        order(table, MFC_BOARD_PLACES);
        list(table, MFC_BOARD_PLACES, MFC_BOARD_PLACES);
    }
}

/* ---- The shift log: short files, each lent with exactly its length or its room */

enum { CLOSING = 8, LOG_BYTES = 1500, LOG_BODY = 300, LOG_RECORDS = 14 };

/* A buffer that is kept from call to call, and the length of the log at its start. */
struct kept_log {
    uint8_t bytes[LOG_BYTES];
    size_t length;
};

/* What a writer did to the buffer comes back; what is behind the log, and all of it after a refusal, is as it was. */
static void written_back(struct kept_log *log, struct lent lent, mfc_written written)
{
    size_t laid = written.refusal == 0 ? written.length : 0;
    if (laid > lent.length) {
        fail("more than was lent");
    }
    if (lent.length > laid && memcmp(lent.bytes + laid, log->bytes + laid, lent.length - laid) != 0) {
        fail("bytes behind the log were changed");
    }
    if (written.refusal == 0) {
        memcpy(log->bytes, lent.bytes, lent.length);
        log->length = written.length;
    }
    fold(written.refusal);
    fold(written.length);
    take_back(lent);
}

static void log_empty(struct kept_log *log, size_t room)
{
    begin("mfc_log_empty");
    struct lent lent = lend(0, log->bytes, room);
    written_back(log, lent, mfc_log_empty(lent.bytes, room));
}

/* A record of any kind, mostly one that is taken. */
static void log_append(struct kept_log *log, size_t room, size_t length)
{
    uint8_t contents[LOG_BODY];
    uint8_t kind = (uint8_t)(below(16) ? 1 + below(3) : any());
    size_t n = kind == MFC_LOG_SILENCE && below(8) ? 0 : below(8) ? below(12) : below(sizeof contents);
    wire_bytes(contents, n);
    begin("mfc_log_append");
    struct lent lent = lend(0, log->bytes, room);
    struct lent body = lend(1, contents, n);
    mfc_written written = mfc_log_append(lent.bytes, room, length, kind, body.bytes, n);
    if (n > 0 && memcmp(body.bytes, contents, n) != 0) {
        fail("a record's body was changed");
    }
    written_back(log, lent, written);
    take_back(body);
}

static void log_check(const uint8_t *file, size_t length)
{
    begin("mfc_log_check");
    struct lent lent = lend(0, file, length);
    mfc_words counted = mfc_log_check(lent.bytes, length);
    if (length > 0 && memcmp(lent.bytes, file, length) != 0) {
        fail("a check changed the file");
    }
    fold(counted.refusal);
    fold(counted.count);
    take_back(lent);
}

static void log_list(const uint8_t *file, size_t length, size_t skip, size_t room)
{
    begin("mfc_log_list");
    struct lent lent = lend(0, file, length);
    struct lent rows = lend(1, NULL, room * sizeof(uint16_t));
    uint16_t *numbers = (uint16_t *)(void *)rows.bytes;
    mfc_words listed = mfc_log_list(lent.bytes, length, skip, numbers, room);
    if (listed.count * MFC_LOG_ROW > room) {
        fail("more than was lent");
    }
    for (size_t at = 0; at < listed.count * MFC_LOG_ROW; at += MFC_LOG_ROW) {
        if ((size_t)numbers[at + 1] + numbers[at + 2] > length) {
            fail("a body that is not in the file");
        }
    }
    if (length > 0 && memcmp(lent.bytes, file, length) != 0) {
        fail("a list changed the file");
    }
    size_t used = listed.count * MFC_LOG_ROW * sizeof(uint16_t);
    if (room > 0 && memcmp(rows.bytes + used, pattern + used, rows.length - used) != 0) {
        fail("a list changed room past its rows");
    }
    fold(listed.refusal);
    fold(listed.count);
    take_back(lent);
    take_back(rows);
}

/* The file is only read; places past the entries, and all of them after a refusal, are as they were. */
static size_t log_replay(const uint8_t *file, size_t length, uint32_t lease, size_t room)
{
    begin("mfc_log_replay");
    struct lent lent = lend(0, file, length);
    struct lent entries = lend(1, NULL, room * PLACE);
    mfc_listed listed = mfc_log_replay(lent.bytes, length, lease, places_of(entries), room);
    if (listed.count > room || (listed.refusal != 0 && listed.count != 0)) {
        fail("more than was lent, or entries beside a refusal");
    }
    for (size_t i = 0; i < listed.count; i++) {
        mfc_entry entry = places_of(entries)[i];
        if (entry.kind != MFC_ENTRY_CALIBRATION || entry.bus != MFC_BUS_SERIAL || entry.address > 254 || entry.left > lease) {
            fail("an entry that no log has");
        }
    }
    if (length > 0 && memcmp(lent.bytes, file, length) != 0) {
        fail("a replay changed the file");
    }
    size_t used = listed.count * PLACE;
    if (room > 0 && memcmp(entries.bytes + used, pattern + used, entries.length - used) != 0) {
        fail("a replay changed room past its entries");
    }
    fold(listed.refusal);
    fold(listed.count);
    take_back(lent);
    take_back(entries);
    return listed.count;
}

static void read_log(const struct kept_log *log)
{
    log_check(log->bytes, log->length);
    log_list(log->bytes, log->length, 0, (LOG_RECORDS + 1) * MFC_LOG_ROW);
    log_list(log->bytes, log->length, below(LOG_RECORDS + 1), below(12));
    log_replay(log->bytes, log->length, a_lease(), below(3));
}

/* No file at all; records from the empty log on, with short room and other lengths between them; then bytes changed,
 * more and fewer. */
static void shift_log(void)
{
    struct kept_log log = {.length = 0};
    wire_bytes(log.bytes, sizeof log.bytes);
    log_append(&log, 0, 0);
    log_check(log.bytes, 0);
    log_list(log.bytes, 0, 0, below(2) * MFC_LOG_ROW);
    log_empty(&log, below(CLOSING));
    log_empty(&log, CLOSING + below(CLOSING));
    for (int records = 0; records < LOG_RECORDS; records++) {
        log_append(&log, sizeof log.bytes, log.length);
        if (below(3) == 0) {
            size_t room = log.length + below(24);
            log_append(&log, room < sizeof log.bytes ? room : sizeof log.bytes, log.length);
            log_append(&log, below(log.length), log.length);
            log_append(&log, log.length, below(log.length));
            log_append(&log, log.length, any());
            read_log(&log);
        }
    }
    read_log(&log);
    for (int spoilt = 0; spoilt < 6; spoilt++) {
        struct kept_log other = log;
        if (below(3) == 0) {
            other.length = below(sizeof log.bytes + 1);
        } else {
            other.bytes[below(log.length)] = (uint8_t)(below(2) ? below(5) : any());
        }
        read_log(&other);
        log_append(&other, sizeof log.bytes, other.length);
    }
}

/* A record that is taken, for what is replayed; its bytes in two records now and then. */
static void log_bytes(struct kept_log *log, uint8_t kind, const uint8_t *bytes, size_t n)
{
    size_t first = below(4) == 0 ? below(n + 1) : n;
    log->length = mfc_log_append(log->bytes, sizeof log->bytes, log->length, kind, bytes, first).length;
    if (first < n) {
        log->length = mfc_log_append(log->bytes, sizeof log->bytes, log->length, kind, bytes + first, n - first).length;
    }
}

/* Temporary calibrations at some addresses, some of them closed again, marks and spoilt bytes between them; then in too little
 * room, with leases out of range, and of files that are no logs. */
static void replays(void)
{
    struct kept_log log = {.length = 0};
    uint8_t frame[MFC_REPLY_ROOM];
    size_t exchanges = below(3) ? below(9) : 28 + below(10);
    log.length = mfc_log_empty(log.bytes, sizeof log.bytes).length;
    for (size_t i = 0; i < exchanges; i++) {
        uint8_t address = (uint8_t)(100 + i);
        uint8_t request = below(8) ? MFC_REQUEST_VOLATILE_CALIBRATION : MFC_REQUEST_SET_CALIBRATION;
        address = request == MFC_REQUEST_SET_CALIBRATION && i > 0 ? (uint8_t)(address - 1) : address;
        size_t n = mfc_write_request(address, request, 1, frame, sizeof frame).length;
        log_bytes(&log, MFC_LOG_REQUEST, frame, n);
        n = mfc_write_reply(address, request, 1, MFC_REPLY_ACKNOWLEDGED, 0, NULL, 0, any() & 1, frame, sizeof frame).length;
        if (below(40) == 0) {
            frame[below(n)] = wire_byte();
        }
        log_bytes(&log, MFC_LOG_REPLY, frame, n);
        if (below(8) == 0) {
            log.length = mfc_log_append(log.bytes, sizeof log.bytes, log.length, MFC_LOG_SILENCE, NULL, 0).length;
        }
    }
    size_t count = log_replay(log.bytes, log.length, 1 + (uint32_t)below(9), MFC_BOARD_PLACES);
    log_replay(log.bytes, log.length, 65535, count);
    log_replay(log.bytes, log.length, a_lease(), count > 0 ? count - 1 : 0);
    log_replay(log.bytes, log.length, a_lease(), below(MFC_BOARD_PLACES + 3));
    log_replay(log.bytes, log.length, 0, below(MFC_BOARD_PLACES + 3));
    log_replay(log.bytes, below(log.length), a_lease(), below(MFC_BOARD_PLACES + 3));
    log_replay(log.bytes, 0, a_lease(), below(2));
    for (int spoilt = 0; spoilt < 3; spoilt++) {
        log.bytes[below(log.length)] = wire_byte();
        log_replay(log.bytes, log.length, a_lease(), below(MFC_BOARD_PLACES + 3));
    }
}

/* ---- One round: all functions, the writers' frames going through the receiver into the readers */

static void writers(uint8_t *frame, size_t *length)
{
    /* A product type's text makes the largest frames, so it is asked for more often than the rest. */
    uint8_t request = (uint8_t)(below(4) ? below(REQUESTS) : MFC_REQUEST_PRODUCT_TYPE);
    mfc_written needed = write_request(wire_byte(), request, 1, NULL, MFC_REQUEST_ROOM);
    write_request(wire_byte(), request, 1, NULL, needed.length > 0 ? needed.length - 1 : 0);
    write_request_at(below(40), below(44));
    write_request_at(30, 30 - below(20));
    uint8_t expected = commands[request].reply;
    uint8_t address = (uint8_t)below(255);
    size_t text_length = below(4) ? below(12) : below(2) ? below(300) : 252 + below(5);
    uint8_t text[300];
    text_bytes(text, text_length);
    mfc_written reply = write_reply(address, request, expected, text, text_length, frame, MFC_REPLY_ROOM);
    if (reply.refusal == 0
        && (write_reply(address, request, expected, text, text_length, NULL, reply.length).refusal != 0
            || write_reply(address, request, expected, text, text_length, NULL, reply.length - 1).refusal
                != MFC_REFUSAL_NO_ROOM)) {
        fail("another room than the frame's length is asked for");
    }
    write_reply(address, request, (uint8_t)below(REPLIES + 2), text, text_length, NULL, below(40));
    *length = reply.length;
    if (below(2)) {
        *length = write_request(address, request, any(), frame, MFC_REQUEST_ROOM).length;
    }
}

/* Feeds a stream in pieces, some with silence before them, and with short room between them; each body goes to the
 * readers. */
static void receive(const uint8_t *stream, size_t length)
{
    uint8_t record[MFC_RECORD_SIZE + 8], frame[MFC_FRAME_ROOM];
    memset(record, 0, sizeof record);
    fresh((uint8_t)below(3), record, MFC_RECORD_SIZE + below(8));
    fresh(MFC_KIND_REQUEST, record, below(MFC_RECORD_SIZE));
    size_t at = 0;
    while (at < length) {
        size_t left = length - at;
        size_t n = below(left < 90 ? left + 1 : 90);
        uint8_t silence = below(12) == 0 ? (uint8_t)(1 + below(255)) : 0;
        if (below(8) == 0) {
            feed(record, silence, stream + at, n, frame, below(MFC_FRAME_ROOM));
        }
        mfc_fed fed = feed(record, silence, stream + at, n, frame, MFC_FRAME_ROOM);
        if (fed.refusal == MFC_REFUSAL_BAD_RECORD) {
            return;
        }
        if (fed.frame_length > 0) {
            read_bodies(frame, fed.frame_length);
        }
        at += fed.taken;
        if (below(16) == 0) {
            silence_alone(record, MFC_RECORD_SIZE, below(MFC_FRAME_ROOM));
            silence_alone(record, MFC_RECORD_SIZE, MFC_FRAME_ROOM);
            noise_in(record, MFC_RECORD_SIZE);
        }
    }
    noise_in(record, MFC_RECORD_SIZE + below(8));
    noise_in(record, below(MFC_RECORD_SIZE));
    noise_in(record, 0);
    silence_alone(record, MFC_RECORD_SIZE - below(4), MFC_FRAME_ROOM + below(4));
    silence_alone(record, 0, below(2) ? MFC_FRAME_ROOM : 0);
    feed_in(record, below(MFC_RECORD_SIZE), (uint8_t)below(2), stream, length, frame, MFC_FRAME_ROOM);
    feed_in(record, 0, (uint8_t)below(2), NULL, 0, frame, 0);
}

/* A record in a stretch of any length: the bytes that it counts past the store are not there to be read. */
static void far_along(void)
{
    static const uint8_t ends[][3] = {{0x00, 0x00, 0x7E}, {0x00, 0x11, 0x7E}, {0x5E, 0x7D, 0x7E}, {0x7D, 0x41, 0x7E}};
    uint8_t record[MFC_RECORD_SIZE], frame[MFC_FRAME_ROOM];
    wire_bytes(record, sizeof record);
    record[0] = (uint8_t)below(2);
    record[1] = (uint8_t)(1 + below(4));
    record[2] = below(2) ? (uint8_t)any() : below(2) ? 0x01 : 0xFF;
    record[3] = (uint8_t)any();
    feed(record, 0, ends[below(4)], 3, frame, MFC_FRAME_ROOM);
    record[1] = (uint8_t)(1 + below(4));
    record[2] = (uint8_t)any();
    feed(record, 1, ends[below(4)], below(4), frame, MFC_FRAME_ROOM);
}

/* A record outside a stretch whose count of noise is at its limit, or so little below that a piece may take it there. */
static void much_noise(void)
{
    uint8_t record[MFC_RECORD_SIZE], frame[MFC_FRAME_ROOM], bytes[20];
    wire_bytes(record, sizeof record);
    uint32_t before = UINT32_MAX - (uint32_t)below(sizeof bytes);
    size_t n = below(sizeof bytes + 1);
    const uint8_t head[] = {(uint8_t)below(2), 0, 0, 0, (uint8_t)(before >> 24), (uint8_t)(before >> 16),
                            (uint8_t)(before >> 8), (uint8_t)before};
    memcpy(record, head, sizeof head);
    memset(bytes, 0x7D, sizeof bytes);
    feed(record, (uint8_t)below(2), bytes, n, frame, MFC_FRAME_ROOM);
    silence_alone(record, MFC_RECORD_SIZE, MFC_FRAME_ROOM);
    if (noise_in(record, MFC_RECORD_SIZE) != (n < UINT32_MAX - before ? before + n : UINT32_MAX)) {
        fail("another count of noise");
    }
}

static void one_round(void)
{
    uint8_t stream[2048];
    size_t length = 0;
    for (int parts = 0; parts < 3; parts++) {
        uint8_t frame[MFC_REPLY_ROOM];
        size_t n = 0;
        writers(frame, &n);
        if (n > 0 && below(3) == 0) {
            frame[below(n)] = wire_byte();
        }
        memcpy(stream + length, frame, n);
        length += n;
    }
    if (below(4) == 0) {
        /* A stretch around the store's size, with a 7E before and after. */
        size_t n = 250 + below(40);
        stream[length++] = 0x7E;
        memset(stream + length, (int)below(16), n);
        length += n;
        if (below(2)) {
            stream[length++] = wire_byte();
        }
        stream[length++] = 0x7E;
    }
    receive(stream, length);
    uint8_t noise[300];
    size_t n = below(4) ? below(20) : below(sizeof noise);
    wire_bytes(noise, n);
    receive(noise, n);
    far_along();
    much_noise();
    read_bodies(noise, n);
    words(below(8), below(9), below(2) == 0);
    words(below(64), below(64), 0);
    i2c_commands();
    numbers();
    /* These make more calls than all the rest, so not every round has them. */
    if (below(4) == 0) {
        board();
    }
    if (below(8) == 0) {
        shift_log();
    }
    if (below(8) == 0) {
        replays();
    }
}

int main(int argc, char **argv)
{
    if (argc < 3) {
        fprintf(stderr, "usage: guards NAME ROUNDS [SEED]\n");
        return 2;
    }
    unsigned long rounds = strtoul(argv[2], NULL, 10);
    uint64_t seed = argc > 3 ? strtoull(argv[3], NULL, 10) : 1;
    struct sigaction action;
    memset(&action, 0, sizeof action);
    action.sa_sigaction = on_fault;
    action.sa_flags = SA_SIGINFO;
    sigaction(SIGSEGV, &action, NULL);
    sigaction(SIGBUS, &action, NULL);
    make_slots();
    uint64_t digests[PLACEMENTS];
    unsigned long total = 0;
    for (int each = 0; each < PLACEMENTS; each++) {
        placement = (enum placement)each;
        state = (seed + 1) * UINT64_C(0x9E3779B97F4A7C15) | 1;
        digest = 0;
        cases = 0;
        for (unsigned long i = 0; i < rounds; i++) {
            one_round();
        }
        digests[each] = digest;
        total += cases;
    }
    int differ = digests[AT_END] != digests[AT_START] || digests[AT_END] != digests[HEAP];
    if (differ) {
        printf("FAILED: the answers change with the place of the slices\n");
    }
    printf("%s: %d sections, %lu cases, %d failures\n", argv[1], PLACEMENTS, total, differ);
    return differ;
}
