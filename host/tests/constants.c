/*
 * The constants of mfc.h against the library: each size is tried at its last byte and one under it, each list of numbers over every
 * number that there is.
 *
 * usage: constants NAME; the name stands before the summary.
 */
#include <stdio.h>
#include <string.h>

#include "commands.h"

static unsigned long cases, failures;

static void expect(int good, const char *what, unsigned long which)
{
    cases++;
    if (!good) {
        failures++;
        printf("FAILED constants: %s (%lu)\n", what, which);
    }
}

static const uint8_t specials[4] = {0x7E, 0x7D, 0x11, 0x13}; /* the bytes that are stuffed */

/* ---- Sizes */

static void record_size(void)
{
    uint8_t record[MFC_RECORD_SIZE + 8], frame[MFC_FRAME_ROOM];
    expect(MFC_RECORD_SIZE == 268, "the bytes of a record", MFC_RECORD_SIZE);
    for (size_t size = 0; size <= sizeof record; size++) {
        uint8_t refusal = mfc_receiver_fresh(MFC_KIND_REPLY, record, size);
        expect(refusal == (size < MFC_RECORD_SIZE ? MFC_REFUSAL_NO_ROOM : 0), "a fresh record of this size", size);
    }
    for (size_t size = 0; size <= sizeof record; size++) {
        int refusal = size < MFC_RECORD_SIZE ? MFC_REFUSAL_BAD_RECORD : 0;
        expect(mfc_feed(record, size, 0, NULL, 0, frame, sizeof frame).refusal == refusal, "a record of this size", size);
        expect(mfc_feed(record, size, 1, NULL, 0, frame, sizeof frame).refusal == refusal, "silence in this size", size);
        expect(mfc_feed(record, size, 1, NULL, 0, frame, 0).refusal == (refusal ? refusal : MFC_REFUSAL_NO_ROOM),
               "this size before no room", size);
        expect(mfc_receiver_noise(record, size).refusal == refusal, "the noise of a record of this size", size);
    }
}

/* 02 (viii): the count is that of the four bytes that the header names, and stops at 4,294,967,295. */
static void noise_count(void)
{
    static const uint8_t head[] = {MFC_KIND_REPLY, 0, 0, 0, 0xFE, 0xDC, 0xBA, 0x98}, noise[] = {0x00, 0x11, 0x7D};
    uint8_t record[MFC_RECORD_SIZE], frame[MFC_FRAME_ROOM];
    memset(record, 0x7E, sizeof record);
    memcpy(record, head, sizeof head);
    expect(mfc_receiver_noise(record, sizeof record).count == 0xFEDCBA98, "the highest byte first", 0);
    mfc_feed(record, sizeof record, 0, noise, sizeof noise, frame, sizeof frame);
    expect(mfc_receiver_noise(record, sizeof record).count == 0xFEDCBA9B, "three bytes more", 3);
    memset(record + 4, 0xFF, 4);
    mfc_feed(record, sizeof record, 1, noise, sizeof noise, frame, sizeof frame);
    expect(mfc_receiver_noise(record, sizeof record).count == 4294967295, "past the limit", 3);
    mfc_receiver_fresh(MFC_KIND_REPLY, record, sizeof record);
    expect(mfc_receiver_noise(record, sizeof record).count == 0, "a fresh receiver", 0);
}

static void frame_room(void)
{
    uint8_t record[MFC_RECORD_SIZE], frame[MFC_FRAME_ROOM + 8];
    const uint8_t one = 0x7E;
    mfc_receiver_fresh(MFC_KIND_REPLY, record, sizeof record);
    for (size_t room = 0; room <= sizeof frame; room++) {
        int refusal = room < MFC_FRAME_ROOM ? MFC_REFUSAL_NO_ROOM : 0;
        for (uint8_t silence = 0; silence < 2; silence++) {
            mfc_fed fed = mfc_feed(record, sizeof record, silence, &one, 1, frame, room);
            expect(fed.refusal == refusal && fed.taken == (refusal ? 0U : 1U), "so much room for a frame", room);
            fed = mfc_feed(record, sizeof record, silence, NULL, 0, frame, room);
            expect(fed.refusal == refusal && fed.taken == 0, "so much room for an empty piece", room);
        }
    }
}

/* Every number but 0 says that silence came before. 02 (ix): it cuts a stretch off with 9, and nothing of the piece is taken. */
static void silence_numbers(void)
{
    static const uint8_t begun[] = {0x7E, 0x00, 0x45}, rest[] = {0x00, 0xBA, 0x7E};
    uint8_t record[MFC_RECORD_SIZE], frame[MFC_FRAME_ROOM];
    for (unsigned silence = 0; silence < 256; silence++) {
        for (size_t n = 0; n <= sizeof rest; n++) {
            mfc_receiver_fresh(MFC_KIND_REQUEST, record, sizeof record);
            mfc_feed(record, sizeof record, 0, begun, sizeof begun, frame, sizeof frame);
            mfc_fed fed = mfc_feed(record, sizeof record, (uint8_t)silence, rest, n, frame, MFC_FRAME_ROOM - 1);
            expect(fed.refusal == MFC_REFUSAL_NO_ROOM && fed.taken == 0, "silence without room", silence);
            fed = mfc_feed(record, sizeof record, (uint8_t)silence, rest, n, frame, sizeof frame);
            expect(fed.refusal == (silence ? MFC_REFUSAL_CUT_BY_SILENCE : 0), "a frame cut off by this number", silence);
            expect(fed.taken == (silence ? 0 : n), "taken with this number", silence);
            expect(fed.frame_length == (silence == 0 && n == sizeof rest ? 4 : 0), "the frame with this number", silence);
            fed = mfc_feed(record, sizeof record, (uint8_t)silence, rest, n, frame, sizeof frame);
            expect(fed.refusal == (silence || n < sizeof rest ? 0 : MFC_REFUSAL_BODY_TOO_SHORT), "the piece again", silence);
            expect(fed.taken == n && fed.frame_length == 0, "taken of the piece again", silence);
        }
    }
}

/* Every request to every address, with every value of stuffed bytes and some others. */
static void request_room(void)
{
    static const uint32_t others[] = {0, 1, 254, 9600, 115200, 0xFFFFFFFF};
    uint8_t out[MFC_REQUEST_ROOM];
    size_t longest = 0;
    for (uint8_t request = 0; request < REQUESTS; request++) {
        for (unsigned address = 0; address < 256; address++) {
            for (unsigned v = 0; v < 256 + sizeof others / sizeof others[0]; v++) {
                uint32_t value = v >= 256 ? others[v - 256]
                                          : (uint32_t)specials[v >> 6] << 24 | (uint32_t)specials[v >> 4 & 3] << 16
                                                | (uint32_t)specials[v >> 2 & 3] << 8 | specials[v & 3];
                mfc_written written = mfc_write_request((uint8_t)address, request, value, out, sizeof out);
                expect(written.refusal != MFC_REFUSAL_NO_ROOM, "a request longer than MFC_REQUEST_ROOM", request);
                longest = written.length > longest ? written.length : longest;
            }
        }
    }
    expect(longest == MFC_REQUEST_ROOM, "the longest request is shorter", longest);
}

/* Texts of nothing but stuffed bytes, from addresses that are stuffed: among so many sums some checksums are stuffed too. */
static void reply_room(void)
{
    uint8_t text[254], out[MFC_REPLY_ROOM];
    size_t longest = 0;
    for (size_t a = 0; a < 4; a++) {
        for (size_t first = 0; first <= sizeof text; first++) {
            memset(text, specials[a], sizeof text);
            memset(text, specials[(a + 1) % 4], first);
            mfc_written written = mfc_write_reply(specials[a], MFC_REQUEST_PRODUCT_TYPE, 0, MFC_REPLY_PRODUCT_TYPE, 0, text,
                                                  sizeof text, 1, out, sizeof out);
            expect(written.refusal == 0, "a reply longer than MFC_REPLY_ROOM", first);
            longest = written.length > longest ? written.length : longest;
        }
    }
    expect(longest == MFC_REPLY_ROOM, "the longest reply is shorter", longest);
}

/* ---- Numbers by their names */

/* The requests of 01's table: the frame of each has that command and subcommand, and takes that reply and no other but an error. */
static void requests_and_replies(void)
{
    for (uint8_t request = 0; request < REQUESTS; request++) {
        uint8_t out[MFC_REPLY_ROOM];
        uint32_t value = request == MFC_REQUEST_SET_BAUD ? 9600 : 1;
        mfc_written written = mfc_write_request(0, request, value, out, sizeof out);
        expect(written.refusal == 0 && out[2] == commands[request].command, "another command", request);
        expect(commands[request].subcommand == NONE || out[4] == commands[request].subcommand, "another subcommand", request);
        for (uint8_t reply = 0; reply < REPLIES; reply++) {
            int suits = reply == commands[request].reply || reply == MFC_REPLY_DEVICE_ERROR;
            uint32_t answer = reply == MFC_REPLY_BAUD ? 9600 : 1;
            written = mfc_write_reply(0, request, value, reply, answer, NULL, 0, 0, out, sizeof out);
            expect(written.refusal == (suits ? 0 : MFC_REFUSAL_FOREIGN_REPLY), "a reply to the request", request);
        }
    }
    uint8_t out[MFC_REPLY_ROOM];
    expect(mfc_write_request(0, REQUESTS, 1, out, sizeof out).refusal == MFC_REFUSAL_UNKNOWN_COMMAND, "one more request", REQUESTS);
}

/* 01: the body 00 45 00 BA is a request, and too short for a reply. */
static void kinds(void)
{
    static const uint8_t wire[] = {0x7E, 0x00, 0x45, 0x00, 0xBA, 0x7E};
    uint8_t record[MFC_RECORD_SIZE], frame[MFC_FRAME_ROOM];
    for (unsigned kind = 0; kind < 256; kind++) {
        int known = kind == MFC_KIND_REQUEST || kind == MFC_KIND_REPLY;
        uint8_t refusal = mfc_receiver_fresh((uint8_t)kind, record, sizeof record);
        expect(refusal == (known ? 0 : MFC_REFUSAL_OUT_OF_RANGE), "a kind of receiver", kind);
        if (known) {
            mfc_fed fed = mfc_feed(record, sizeof record, 0, wire, sizeof wire, frame, sizeof frame);
            expect(kind == MFC_KIND_REQUEST ? fed.frame_length == 4 : fed.refusal == MFC_REFUSAL_BODY_TOO_SHORT,
                   "a request's frame", kind);
        }
    }
}

/* What a receiver of requests answers to a stretch of bytes between two 7E. */
static uint8_t refusal_of(const uint8_t *stretch, size_t n)
{
    uint8_t record[MFC_RECORD_SIZE], frame[MFC_FRAME_ROOM], wire[600] = {0x7E};
    memcpy(wire + 1, stretch, n);
    wire[n + 1] = 0x7E;
    mfc_receiver_fresh(MFC_KIND_REQUEST, record, sizeof record);
    return mfc_feed(record, sizeof record, 0, wire, n + 2, frame, sizeof frame).refusal;
}

/* Those that are not named elsewhere here: something that 01's table says is refused so. */
static void refusals(void)
{
    static const uint8_t begun[] = {0x7E, 0x00}, error[] = {0x00, 0x46, 0x20, 0x00, 0x99}, zeros[260] = {0};
    uint8_t record[MFC_RECORD_SIZE], frame[MFC_FRAME_ROOM], out[MFC_REQUEST_ROOM];
    uint16_t word;
    expect(refusal_of((const uint8_t[]){0x7D, 0x41}, 2) == MFC_REFUSAL_BAD_ESCAPE, "7D 41", 3);
    expect(refusal_of((const uint8_t[]){0x11}, 1) == MFC_REFUSAL_BARE_CONTROL, "a bare 11", 4);
    expect(refusal_of(zeros, sizeof zeros) == MFC_REFUSAL_BODY_TOO_LONG, "a body of 260 bytes", 5);
    expect(refusal_of((const uint8_t[]){0x00, 0x45, 0x01, 0xB9}, 4) == MFC_REFUSAL_WRONG_LENGTH, "L of 1 without data", 7);
    expect(refusal_of((const uint8_t[]){0x00, 0x45, 0x00, 0xBB}, 4) == MFC_REFUSAL_WRONG_CHECKSUM, "checksum BB for BA", 8);
    mfc_receiver_fresh(MFC_KIND_REQUEST, record, sizeof record);
    mfc_feed(record, sizeof record, 0, begun, sizeof begun, frame, sizeof frame);
    mfc_fed fed = mfc_feed(record, sizeof record, 1, begun, sizeof begun, frame, sizeof frame);
    expect(fed.refusal == MFC_REFUSAL_CUT_BY_SILENCE && fed.taken == 0, "a frame cut off", 9);
    expect(mfc_write_request(255, MFC_REQUEST_SET_ADDRESS, 1, out, sizeof out).refusal == MFC_REFUSAL_ADDRESS_BROADCAST,
           "set address for all", 10);
    expect(mfc_write_request(0, MFC_REQUEST_SET_GAIN, 0x7F800000, out, sizeof out).refusal == MFC_REFUSAL_BAD_FLOAT,
           "an infinite gain", 13);
    mfc_reply reply = mfc_read_reply(0, MFC_REQUEST_VOLATILE_CALIBRATION, 1, error, sizeof error);
    expect(reply.refusal == MFC_REFUSAL_DEVICE_ERROR && reply.code == 32, "01, example 8", 15);
    expect(mfc_read_words(MFC_START_SFC6, zeros, 2, &word, 1).refusal == MFC_REFUSAL_BAD_WORD_COUNT, "two bytes", 16);
    expect(mfc_read_words(MFC_START_SFC6, zeros, 3, &word, 1).refusal == MFC_REFUSAL_WRONG_CRC, "00 00 00 of SFC6", 17);
    expect(mfc_scaled(1, 0, 0).refusal == MFC_REFUSAL_BAD_SCALE, "scale 0", 18);
}

/* 01, examples 9 and 10. */
static void start_values(void)
{
    expect(mfc_crc(MFC_START_LIQUID, (const uint8_t[]){0x0E, 0x00}, 2) == 0x6D, "the liquid sensors' start value", 0);
    expect(mfc_crc(MFC_START_SFC6, (const uint8_t[]){0xBE, 0xEF}, 2) == 0x92, "the start value of SFC6", 0);
}

/* The bytes that a command takes by its code, 0 where it is none. */
static size_t sfc6_length(unsigned code)
{
    switch (code) {
    case MFC_SFC6_POINT_TO_TEMPERATURE:
    case MFC_SFC6_POINT_BACK:
    case MFC_SFC6_SHUT_VALVE:
    case MFC_SFC6_NORMAL_CONTROL: return 2;
    case MFC_SFC6_SET_CONCENTRATION:
    case MFC_SFC6_START_MIXTURE0:
    case MFC_SFC6_START_MIXTURE1: return 5;
    default: return 0;
    }
}

static size_t liquid_length(unsigned code)
{
    switch (code) {
    case MFC_LIQUID_READ_USER:
    case MFC_LIQUID_READ_ADVANCED:
    case MFC_LIQUID_FLOW:
    case MFC_LIQUID_TEMPERATURE:
    case MFC_LIQUID_SUPPLY:
    case MFC_LIQUID_RESET: return 1;
    case MFC_LIQUID_WRITE_USER:
    case MFC_LIQUID_WRITE_ADVANCED: return 3;
    default: return 0;
    }
}

static void i2c_codes(void)
{
    uint8_t out[5];
    for (unsigned code = 0; code < 65536; code++) {
        mfc_written written = mfc_write_sfc6((uint16_t)code, 1000, out, sizeof out);
        expect(written.length == sfc6_length(code), "a code of SFC6", code);
    }
    for (unsigned code = 0; code < 256; code++) {
        mfc_written written = mfc_write_liquid((uint8_t)code, 0, out, sizeof out);
        expect(written.length == liquid_length(code), "a code of liquid sensors", code);
    }
    /* the names, as 01 has them */
    static const struct { unsigned constant, code; } names[] = {
        {MFC_SFC6_POINT_TO_TEMPERATURE, 0xE102}, {MFC_SFC6_POINT_BACK, 0xE000}, {MFC_SFC6_SET_CONCENTRATION, 0xE17D},
        {MFC_SFC6_START_MIXTURE0, 0x3650}, {MFC_SFC6_START_MIXTURE1, 0x365B}, {MFC_SFC6_SHUT_VALVE, 0x3FEF},
        {MFC_SFC6_NORMAL_CONTROL, 0x3F6E}, {MFC_LIQUID_WRITE_USER, 0xE2}, {MFC_LIQUID_READ_USER, 0xE3},
        {MFC_LIQUID_WRITE_ADVANCED, 0xE4}, {MFC_LIQUID_READ_ADVANCED, 0xE5}, {MFC_LIQUID_FLOW, 0xF1},
        {MFC_LIQUID_TEMPERATURE, 0xF3}, {MFC_LIQUID_SUPPLY, 0xF5}, {MFC_LIQUID_RESET, 0xFE},
    };
    for (size_t i = 0; i < sizeof names / sizeof names[0]; i++) {
        expect(names[i].constant == names[i].code, "a code's name", names[i].code);
    }
}

/* ---- The handover board, by 02 (i) */

/* Each function on an empty table of every size: 31 and 33 places are refused, 32 are not. */
static void board_places(void)
{
    mfc_entry table[2 * MFC_BOARD_PLACES], entries[1];
    memset(table, 0, sizeof table);
    expect(MFC_BOARD_PLACES == 32, "the places of a table", MFC_BOARD_PLACES);
    for (size_t n = 0; n <= 2 * MFC_BOARD_PLACES; n++) {
        int answer = n == MFC_BOARD_PLACES ? 0 : MFC_REFUSAL_NO_ROOM;
        expect(mfc_board_open(table, n, MFC_BUS_I2C, 5, MFC_ENTRY_VALVE, 9) == answer, "opened in so many places", n);
        expect(mfc_board_poll(table, n) == answer, "polled with so many places", n);
        expect(mfc_board_list(table, n, entries, 1).refusal == answer, "listed with so many places", n);
        expect(mfc_board_close(table, n, MFC_BUS_I2C, 5, MFC_ENTRY_VALVE) == answer, "closed in so many places", n);
        expect(mfc_board_restart(table, n, MFC_BUS_SERIAL, 5) == answer, "restarted with so many places", n);
        expect(mfc_board_reply(table, n, 5, MFC_REQUEST_GET_SETPOINT, 0, 9) == answer, "a reply with so many places", n);
        expect(mfc_board_acknowledged(table, n, 5, MFC_SFC6_POINT_BACK, 9) == answer, "a code with so many places", n);
    }
}

static uint8_t opened(unsigned bus, unsigned address, unsigned kind)
{
    mfc_entry table[MFC_BOARD_PLACES];
    memset(table, 0, sizeof table);
    return mfc_board_open(table, MFC_BOARD_PLACES, (uint8_t)bus, (uint8_t)address, (uint8_t)kind, 9);
}

/* Every number as a bus, as a kind and as an address, which goes to 254 on serial and to 127 on I2C. */
static void board_numbers(void)
{
    for (unsigned n = 0; n < 256; n++) {
        int bus = n == MFC_BUS_SERIAL || n == MFC_BUS_I2C, kind = n == MFC_ENTRY_VALVE || n == MFC_ENTRY_CALIBRATION;
        expect(opened(n, 5, MFC_ENTRY_VALVE) == (bus ? 0 : MFC_REFUSAL_OUT_OF_RANGE), "a bus", n);
        expect(opened(MFC_BUS_SERIAL, 5, n) == (kind ? 0 : MFC_REFUSAL_OUT_OF_RANGE), "a kind of entry", n);
        expect(opened(MFC_BUS_SERIAL, n, MFC_ENTRY_VALVE) == (n <= 254 ? 0 : MFC_REFUSAL_OUT_OF_RANGE), "on serial", n);
        expect(opened(MFC_BUS_I2C, n, MFC_ENTRY_VALVE) == (n <= 127 ? 0 : MFC_REFUSAL_OUT_OF_RANGE), "on I2C", n);
    }
}

static int holds(mfc_entry place, unsigned bus, unsigned address, unsigned kind, unsigned left)
{
    return place.bus == bus && place.address == address && place.kind == kind && place.left == left;
}

/* What 3FEF and an accepted 46 open, 3F6E and an accepted 45 set close; serial is listed first, and a node's valve. */
static void board_names(void)
{
    mfc_entry table[MFC_BOARD_PLACES], entries[3];
    const size_t n = MFC_BOARD_PLACES;
    memset(table, 0, sizeof table);
    expect(mfc_board_acknowledged(table, n, 5, MFC_SFC6_SHUT_VALVE, 8) == 0, "3FEF", 0);
    expect(holds(table[0], MFC_BUS_I2C, 5, MFC_ENTRY_VALVE, 8), "what 3FEF opens", 0);
    expect(mfc_board_reply(table, n, 6, MFC_REQUEST_VOLATILE_CALIBRATION, 0, 9) == 0, "46", 1);
    expect(holds(table[1], MFC_BUS_SERIAL, 6, MFC_ENTRY_CALIBRATION, 9), "what 46 opens", 1);
    expect(mfc_board_open(table, n, MFC_BUS_SERIAL, 6, MFC_ENTRY_VALVE, 7) == 0, "a valve on serial", 2);
    expect(mfc_board_list(table, n, entries, 3).count == 3, "the entries", 3);
    expect(holds(entries[0], MFC_BUS_SERIAL, 6, MFC_ENTRY_VALVE, 7), "listed first", 0);
    expect(holds(entries[1], MFC_BUS_SERIAL, 6, MFC_ENTRY_CALIBRATION, 9), "listed second", 1);
    expect(holds(entries[2], MFC_BUS_I2C, 5, MFC_ENTRY_VALVE, 8), "listed third", 2);
    expect(mfc_board_acknowledged(table, n, 5, MFC_SFC6_NORMAL_CONTROL, 8) == 0, "3F6E", 0);
    expect(mfc_board_reply(table, n, 6, MFC_REQUEST_SET_CALIBRATION, 0, 9) == 0, "45 set", 1);
    expect(holds(table[0], 0, 0, 0, 0) && holds(table[1], 0, 0, 0, 0), "closed", 0);
    expect(mfc_board_list(table, n, entries, 3).count == 1, "the entry that is left", 1);
}

/* As many entries as there are places, and one more. */
static void board_full(void)
{
    mfc_entry table[MFC_BOARD_PLACES];
    memset(table, 0, sizeof table);
    expect(MFC_REFUSAL_BOARD_FULL == 19, "the refusal of a full board", MFC_REFUSAL_BOARD_FULL);
    for (uint8_t address = 0; address <= MFC_BOARD_PLACES; address++) {
        uint8_t refusal = mfc_board_open(table, MFC_BOARD_PLACES, MFC_BUS_I2C, address, MFC_ENTRY_VALVE, 9);
        expect(refusal == (address < MFC_BOARD_PLACES ? 0 : MFC_REFUSAL_BOARD_FULL), "so many entries before", address);
    }
}

/* ---- The shift log, by 02 (v) */

static uint8_t file[MFC_LOG_ROOM + 8], body[MFC_LOG_ROOM];

/* What a record of so many bytes is answered on the empty log, in so much room. */
static mfc_written added(unsigned kind, size_t n, size_t room)
{
    return mfc_log_append(file, room, mfc_log_empty(file, room).length, (uint8_t)kind, body, n);
}

/* A body that takes all of 65,000 bytes, 3 of them its trailer, needs all the room; with one byte more it is no log's. */
static void log_room(void)
{
    const size_t longest = 65000 - 3;
    expect(MFC_LOG_ROOM == 65008, "room for any log", MFC_LOG_ROOM);
    for (size_t room = MFC_LOG_ROOM - 8; room <= sizeof file; room++) {
        mfc_written written = added(MFC_LOG_REPLY, longest, room);
        expect(written.refusal == (room < MFC_LOG_ROOM ? MFC_REFUSAL_NO_ROOM : 0), "so much room for the longest log", room);
        expect(written.length == (room < MFC_LOG_ROOM ? 0 : MFC_LOG_ROOM), "the length of the longest log", room);
        expect(added(MFC_LOG_REPLY, longest + 1, room).refusal == MFC_REFUSAL_OUT_OF_RANGE, "a longer log", room);
    }
}

/* Every number as a kind, without a body and with one. */
static void log_kinds(void)
{
    for (unsigned kind = 0; kind < 256; kind++) {
        int bytes = kind == MFC_LOG_REQUEST || kind == MFC_LOG_REPLY, known = bytes || kind == MFC_LOG_SILENCE;
        expect(added(kind, 0, sizeof file).refusal == (known ? 0 : MFC_REFUSAL_BAD_KIND), "a kind of record", kind);
        expect(added(kind, 1, sizeof file).refusal == (bytes ? 0 : MFC_REFUSAL_BAD_KIND), "a kind with a body", kind);
    }
    expect(MFC_LOG_REQUEST == 1, "request-side bytes", MFC_LOG_REQUEST);
    expect(MFC_LOG_REPLY == 2, "reply-side bytes", MFC_LOG_REPLY);
    expect(MFC_LOG_SILENCE == 3, "a silence mark", MFC_LOG_SILENCE);
}

/* 02's example, then a mark: the list has MFC_LOG_ROW numbers a row, and no part of a row. */
static void log_row(void)
{
    static const uint8_t frame[] = {0x7E, 0x00, 0x45, 0x00, 0xBA, 0x7E};
    static const uint8_t example[] = {0x7E, 0x00, 0x45, 0x00, 0xBA, 0x7E, 0x01, 0x00, 0x06,
                                      0x00, 0x00, 0x00, 0x01, 0x00, 0x00, 0x00, 0x09};
    static const uint16_t expected[2 * MFC_LOG_ROW] = {MFC_LOG_SILENCE, 9, 0, MFC_LOG_REQUEST, 0, 6};
    uint16_t rows[3 * MFC_LOG_ROW];
    expect(MFC_LOG_ROW == 3, "the numbers of a row", MFC_LOG_ROW);
    size_t length = mfc_log_empty(file, sizeof file).length;
    length = mfc_log_append(file, sizeof file, length, MFC_LOG_REQUEST, frame, sizeof frame).length;
    expect(length == sizeof example && memcmp(file, example, sizeof example) == 0, "02's example", length);
    length = mfc_log_append(file, sizeof file, length, MFC_LOG_SILENCE, NULL, 0).length;
    for (size_t room = 0; room <= 3 * MFC_LOG_ROW; room++) {
        size_t fit = room / MFC_LOG_ROW < 2 ? room / MFC_LOG_ROW : 2;
        mfc_words listed = mfc_log_list(file, length, 0, rows, room);
        expect(listed.refusal == (fit == 0 ? MFC_REFUSAL_NO_ROOM : 0), "so many numbers for a list", room);
        expect(listed.count == fit, "the rows in so many numbers", room);
        expect(memcmp(rows, expected, fit * MFC_LOG_ROW * sizeof rows[0]) == 0, "the list in so many numbers", room);
    }
}

/* The refusals of a log: a file for each that 02 refuses so. */
static void log_refusals(void)
{
    static const uint8_t cut[] = {0x01, 0, 0, 0, 0, 0, 0, 0, 1}, unknown[] = {0x04, 0, 0, 0, 0, 0, 1, 0, 0, 0, 3},
                         counted[] = {0, 0, 0, 1, 0, 0, 0, 0}, good[] = {0, 0, 0, 0, 0, 0, 0, 0};
    expect(MFC_REFUSAL_BAD_TOTAL == 20, "the refusal of a total", MFC_REFUSAL_BAD_TOTAL);
    expect(MFC_REFUSAL_BAD_TRAILER == 21, "the refusal of a trailer", MFC_REFUSAL_BAD_TRAILER);
    expect(MFC_REFUSAL_BAD_KIND == 22, "the refusal of a kind", MFC_REFUSAL_BAD_KIND);
    expect(MFC_REFUSAL_WRONG_COUNT == 23, "the refusal of a count", MFC_REFUSAL_WRONG_COUNT);
    expect(mfc_log_check(good, 7).refusal == MFC_REFUSAL_BAD_TOTAL, "seven bytes", 20);
    expect(mfc_log_check(cut, sizeof cut).refusal == MFC_REFUSAL_BAD_TRAILER, "one byte of a trailer", 21);
    expect(mfc_log_check(unknown, sizeof unknown).refusal == MFC_REFUSAL_BAD_KIND, "kind 4", 22);
    expect(mfc_log_check(counted, sizeof counted).refusal == MFC_REFUSAL_WRONG_COUNT, "no record, and one counted", 23);
    expect(mfc_log_check(good, sizeof good).refusal == 0, "the empty log", 0);
}

/* ---- The replay, by 02 (vi) */

/* Adds a request to an address and an answer to it that is accepted. */
static size_t exchanged(size_t length, uint8_t address, uint8_t request)
{
    uint8_t frame[MFC_REPLY_ROOM], reply = commands[request].reply;
    uint32_t value = request == MFC_REQUEST_SET_BAUD || reply == MFC_REPLY_BAUD ? 9600 : 1;
    size_t n = mfc_write_request(address, request, value, frame, sizeof frame).length;
    length = mfc_log_append(file, sizeof file, length, MFC_LOG_REQUEST, frame, n).length;
    n = mfc_write_reply(address, request, value, reply, value, NULL, 0, 0, frame, sizeof frame).length;
    return mfc_log_append(file, sizeof file, length, MFC_LOG_REPLY, frame, n).length;
}

/* Each request in turn: 46 opens a calibration on serial, 45 set closes it, the others concern no entry. */
static void replay_names(void)
{
    mfc_entry entries[1];
    for (uint8_t request = 0; request < REQUESTS; request++) {
        size_t length = exchanged(mfc_log_empty(file, sizeof file).length, 5, MFC_REQUEST_VOLATILE_CALIBRATION);
        mfc_listed listed = mfc_log_replay(file, length, 9, entries, 1);
        expect(listed.refusal == 0 && listed.count == 1, "46 answered", request);
        expect(holds(entries[0], MFC_BUS_SERIAL, 5, MFC_ENTRY_CALIBRATION, 9), "what it opens", request);
        length = mfc_log_append(file, sizeof file, length, MFC_LOG_SILENCE, NULL, 0).length;
        length = exchanged(length, 5, request);
        listed = mfc_log_replay(file, length, 9, entries, 1);
        expect(listed.count == (request == MFC_REQUEST_SET_CALIBRATION ? 0 : 1), "the entries after this request", request);
        uint16_t left = request == MFC_REQUEST_VOLATILE_CALIBRATION ? 9 : 8;
        expect(listed.count == 0 || entries[0].left == left, "the polls left after this request", request);
    }
}

/* MFC_BOARD_PLACES entries hold any list: with so many places 1 never comes, and a log that would have more entries is refused. */
static void replay_room(void)
{
    mfc_entry entries[MFC_BOARD_PLACES + 1];
    size_t length = mfc_log_empty(file, sizeof file).length;
    for (size_t n = 0; n <= MFC_BOARD_PLACES + 1; n++) {
        for (size_t room = 0; room <= MFC_BOARD_PLACES + 1; room++) {
            int refusal = n > MFC_BOARD_PLACES ? MFC_REFUSAL_BOARD_FULL : n > room ? MFC_REFUSAL_NO_ROOM : 0;
            mfc_listed listed = mfc_log_replay(file, length, 9, entries, room);
            expect(listed.refusal == refusal && listed.count == (refusal ? 0 : n), "so many entries", n);
        }
        length = exchanged(length, (uint8_t)(20 + n), MFC_REQUEST_VOLATILE_CALIBRATION);
    }
}

/* A lease of 1 to 65,535, and its refusal before that of the log. */
static void replay_lease(void)
{
    mfc_entry entries[1];
    size_t length = exchanged(mfc_log_empty(file, sizeof file).length, 5, MFC_REQUEST_VOLATILE_CALIBRATION);
    for (uint32_t lease = 0; lease <= 65600; lease++) {
        int good = lease >= 1 && lease <= 65535;
        mfc_listed listed = mfc_log_replay(file, length, lease, entries, 1);
        expect(listed.refusal == (good ? 0 : MFC_REFUSAL_OUT_OF_RANGE), "a lease", lease);
        expect(!good || entries[0].left == lease, "the polls of a lease", lease);
        listed = mfc_log_replay(file, length - 1, lease, entries, 1);
        expect(listed.refusal == (good ? MFC_REFUSAL_BAD_TOTAL : MFC_REFUSAL_OUT_OF_RANGE), "a lease and no log", lease);
    }
}

int main(int argc, char **argv)
{
    static void (*const sections[])(void) = {
        record_size, frame_room,   request_room,  reply_room,  requests_and_replies, kinds,    refusals,  start_values,
        i2c_codes,   board_places, board_numbers, board_names, board_full,           log_room, log_kinds, log_row,
        log_refusals, noise_count, silence_numbers, replay_names, replay_room, replay_lease,
    };
    const int count = sizeof sections / sizeof sections[0];
    if (argc != 2) {
        fprintf(stderr, "usage: constants NAME\n");
        return 2;
    }
    for (int i = 0; i < count; i++) {
        sections[i]();
    }
    printf("%s: %d sections, %lu cases, %lu failures\n", argv[1], count, cases, failures);
    return failures != 0;
}
