/* Frames, requests and replies of SFC6 mass flow controllers on SHDLC, words and commands of
 * two sensor families on I2C, scaled readings, the handover board, the shift log and its
 * replay. No function keeps state or a pointer, or allocates. Each takes any numbers and any
 * bytes.
 *
 * Compile with -Wconversion: C cuts a number that is too wide for its parameter, and address
 * 256 would be sent to 0.
 *
 * A slice is a pointer and a length. A pointer may be NULL only with length 0, and the buffers
 * lent to one call do not overlap. The length of a slice of uint16_t is in words, that of a
 * slice of mfc_entry in entries.
 *
 * A result is a number, or a struct whose first field is the number of a refusal, 0 for none.
 * Every other field is 0 where nothing is said of it. A refusal leaves all lent buffers as they
 * were, save that a receiver's record goes on past an item that is refused with 3 to 9. A
 * writer that succeeds changes only the bytes of its answer.
 *
 * A receiver's record is the first MFC_RECORD_SIZE bytes of a slice that the caller keeps from
 * call to call: kind (0 requests, 1 replies), mode (0 outside a frame, 1 in one, 2 after a 7D,
 * 3 and 4 the refusal found), length (high byte, low byte), count of noise bytes (four bytes,
 * the highest first), and 260 bytes of store. Bytes past them are not touched.
 *
 * The value of a request or a reply is a number, a float by its bits. Beside a request or a
 * reply that carries none it is not looked at. In a reply FFFFFFFF hex is an invalid reading,
 * 7F800000 plus infinity and FF800000 minus infinity.
 *
 * A handover board is a table of MFC_BOARD_PLACES entries that the caller keeps from call to
 * call, all of them zeros at the start. It has an entry for each valve and each temporary
 * calibration that was opened and is not yet closed, with its polls left.
 *
 * A shift log is a file of records of what crossed the wire, at most MFC_LOG_ROOM bytes: each
 * is its body, its kind and the body's length (high byte, low byte); the last eight bytes are
 * the number of records and the bytes of all of them, each highest byte first. */

/* Made by tools/header of crates/mfc, crates/mfc_replay and those below them: change it there. */
#ifndef MFC_H
#define MFC_H

#include <stddef.h>
#include <stdint.h>

#ifdef __cplusplus
extern "C" {
#endif

/* Sizes, start values, the kinds of a log's records, and the marks of two logs compared. */
enum {
    /* The bytes of a receiver's record. */
    MFC_RECORD_SIZE = 268,
    /* The bytes that mfc_feed needs for a frame's body. */
    MFC_FRAME_ROOM = 260,
    /* The longest frame that mfc_write_request writes: 7E, command, L, subcommand, 7E, and all
     * of address, value and checksum stuffed. */
    MFC_REQUEST_ROOM = 17,
    /* The longest frame that mfc_write_reply writes: 7E, command, state, L, the text's 00, 7E,
     * and all of address, checksum and a text of 254 bytes stuffed. */
    MFC_REPLY_ROOM = 518,
    /* The start value of the CRC of liquid sensors. */
    MFC_START_LIQUID = 0x00,
    /* The start value of the CRC of SFC6. */
    MFC_START_SFC6 = 0xFF,
    /* The places of a handover board's table. */
    MFC_BOARD_PLACES = 32,
    /* Room for any shift log: 65,000 bytes of records, and the eight that close it. */
    MFC_LOG_ROOM = 65008,
    /* The most records that a log has: 65,000 bytes, 3 for each without a body. */
    MFC_LOG_RECORDS = 21666,
    /* The numbers of a row of a log's list. */
    MFC_LOG_ROW = 3,
    /* A record of request-side bytes. */
    MFC_LOG_REQUEST = 1,
    /* A record of reply-side bytes. */
    MFC_LOG_REPLY = 2,
    /* A silence mark, without a body. */
    MFC_LOG_SILENCE = 3,
    /* The mark of a place at which two logs have the same record. */
    MFC_LOG_SAME = 0,
    /* The mark of a place at which their records differ in kind or body. */
    MFC_LOG_DIFFER = 1,
    /* The mark of a place at which only the first has a record. */
    MFC_LOG_ONLY_A = 2,
    /* The mark of a place at which only the second has a record. */
    MFC_LOG_ONLY_B = 3
};

/* Refusals. */
enum {
    /* lent room is less than this answer needs; a board's table not of 32 places; a log's
     * length past the lent buffer. */
    MFC_REFUSAL_NO_ROOM = 1,
    /* receiver record outside its ranges; a board's table with an entry out of range, or with a
     * node and kind twice. */
    MFC_REFUSAL_BAD_RECORD = 2,
    /* 7D not followed by 5E, 5D, 31 or 33, or last in the stretch; the place of the 7D there,
     * as received. */
    MFC_REFUSAL_BAD_ESCAPE = 3,
    /* 11 or 13 not after a 7D; its place in the stretch, as received. */
    MFC_REFUSAL_BARE_CONTROL = 4,
    /* body over 259 (request) or 260 (reply). */
    MFC_REFUSAL_BODY_TOO_LONG = 5,
    /* body under 4 (request) or 5 (reply). */
    MFC_REFUSAL_BODY_TOO_SHORT = 6,
    /* L differs from the data bytes present. */
    MFC_REFUSAL_WRONG_LENGTH = 7,
    /* checksum wrong. */
    MFC_REFUSAL_WRONG_CHECKSUM = 8,
    /* non-empty stretch cut off by silence. */
    MFC_REFUSAL_CUT_BY_SILENCE = 9,
    /* set slave address sent to address 255. */
    MFC_REFUSAL_ADDRESS_BROADCAST = 10,
    /* command or subcommand not in the table; subcommand missing. */
    MFC_REFUSAL_UNKNOWN_COMMAND = 11,
    /* a data length not in the table, a value out of its range, or a field past the payload's
     * end; a record that would take a log's total past 65,000. */
    MFC_REFUSAL_OUT_OF_RANGE = 12,
    /* float not allowed there. */
    MFC_REFUSAL_BAD_FLOAT = 13,
    /* reply does not belong to the request. */
    MFC_REFUSAL_FOREIGN_REPLY = 14,
    /* device reported an execution error; its code, 1 to 127. */
    MFC_REFUSAL_DEVICE_ERROR = 15,
    /* word bytes empty or not a multiple of 3; list of words to write empty. */
    MFC_REFUSAL_BAD_WORD_COUNT = 16,
    /* a word's CRC wrong; the first such word's index, from 0. */
    MFC_REFUSAL_WRONG_CRC = 17,
    /* scale factor outside 1 to 32,767. */
    MFC_REFUSAL_BAD_SCALE = 18,
    /* a new entry is wanted and all 32 places of the board are held. */
    MFC_REFUSAL_BOARD_FULL = 19,
    /* a log under 8 bytes, a total that differs from what precedes it, or one over 65,000. */
    MFC_REFUSAL_BAD_TOTAL = 20,
    /* a trailer cut short or pointing before the start, at a log's newest faulty record. */
    MFC_REFUSAL_BAD_TRAILER = 21,
    /* an unknown kind or a kind 3 with a body, at a log's newest faulty record or in a record
     * to be added. */
    MFC_REFUSAL_BAD_KIND = 22,
    /* a log's count is not the number of its records. */
    MFC_REFUSAL_WRONG_COUNT = 23
};

/* Kinds of receivers. */
enum {
    MFC_KIND_REQUEST = 0,
    MFC_KIND_REPLY = 1
};

/* Requests. */
enum {
    MFC_REQUEST_GET_SETPOINT = 0,
    MFC_REQUEST_SET_SETPOINT = 1,
    MFC_REQUEST_MEASURED_VALUE = 2,
    MFC_REQUEST_GET_GAIN = 3,
    MFC_REQUEST_SET_GAIN = 4,
    MFC_REQUEST_GET_INIT_STEP = 5,
    MFC_REQUEST_SET_INIT_STEP = 6,
    MFC_REQUEST_RAW_FLOW = 7,
    MFC_REQUEST_RAW_CONDUCTIVITY = 8,
    MFC_REQUEST_TEMPERATURE = 9,
    MFC_REQUEST_NUMBER_OF_CALIBRATIONS = 10,
    MFC_REQUEST_VALIDITY = 11,
    MFC_REQUEST_FULL_SCALE = 12,
    MFC_REQUEST_GET_CALIBRATION = 13,
    MFC_REQUEST_SET_CALIBRATION = 14,
    MFC_REQUEST_VOLATILE_CALIBRATION = 15,
    MFC_REQUEST_GET_ADDRESS = 16,
    MFC_REQUEST_SET_ADDRESS = 17,
    MFC_REQUEST_GET_BAUD = 18,
    MFC_REQUEST_SET_BAUD = 19,
    MFC_REQUEST_PRODUCT_TYPE = 20
};

/* Replies. */
enum {
    MFC_REPLY_ACKNOWLEDGED = 0,
    MFC_REPLY_SETPOINT = 1,
    MFC_REPLY_MEASURED_VALUE = 2,
    MFC_REPLY_GAIN = 3,
    MFC_REPLY_INIT_STEP = 4,
    MFC_REPLY_RAW_FLOW = 5,
    MFC_REPLY_RAW_CONDUCTIVITY = 6,
    MFC_REPLY_TEMPERATURE = 7,
    MFC_REPLY_NUMBER_OF_CALIBRATIONS = 8,
    MFC_REPLY_VALIDITY = 9,
    MFC_REPLY_FULL_SCALE = 10,
    MFC_REPLY_CALIBRATION = 11,
    MFC_REPLY_ADDRESS = 12,
    MFC_REPLY_BAUD = 13,
    MFC_REPLY_PRODUCT_TYPE = 14,
    MFC_REPLY_DEVICE_ERROR = 15
};

/* Commands of SFC6 on I2C. */
enum {
    MFC_SFC6_POINT_TO_TEMPERATURE = 0xE102,
    MFC_SFC6_POINT_BACK = 0xE000,
    /* the concentration of a running measurement. */
    MFC_SFC6_SET_CONCENTRATION = 0xE17D,
    /* start on mixture 0, gas 0 in gas 1. */
    MFC_SFC6_START_MIXTURE0 = 0x3650,
    /* start on mixture 1, gas 7 in gas 8. */
    MFC_SFC6_START_MIXTURE1 = 0x365B,
    MFC_SFC6_SHUT_VALVE = 0x3FEF,
    MFC_SFC6_NORMAL_CONTROL = 0x3F6E
};

/* Commands of liquid sensors on I2C. */
enum {
    MFC_LIQUID_WRITE_USER = 0xE2,
    MFC_LIQUID_READ_USER = 0xE3,
    MFC_LIQUID_WRITE_ADVANCED = 0xE4,
    MFC_LIQUID_READ_ADVANCED = 0xE5,
    MFC_LIQUID_FLOW = 0xF1,
    MFC_LIQUID_TEMPERATURE = 0xF3,
    MFC_LIQUID_SUPPLY = 0xF5,
    MFC_LIQUID_RESET = 0xFE
};

/* Buses. */
enum {
    MFC_BUS_SERIAL = 0,
    MFC_BUS_I2C = 1
};

/* Kinds of entries of a handover board. */
enum {
    /* A valve that 3FEF has shut. */
    MFC_ENTRY_VALVE = 1,
    /* A temporary calibration, by command 46. */
    MFC_ENTRY_CALIBRATION = 2
};

/* What a writer answers. */
typedef struct {
    /* The refusal's number, 0 for none. */
    uint8_t refusal;
    /* The bytes written. */
    size_t length;
} mfc_written;

/* What reading a request answers. */
typedef struct {
    /* The refusal's number, 0 for none. */
    uint8_t refusal;
    /* The address that the request went to. */
    uint8_t address;
    /* The request's number, 0 to 20. */
    uint8_t request;
    /* The value that it carries, a float by its bits. */
    uint32_t value;
} mfc_request;

/* What reading a reply answers. */
typedef struct {
    /* The refusal's number, 0 for none. */
    uint8_t refusal;
    /* With refusal 15 the device's error code, 1 to 127. */
    uint8_t code;
    /* Bit 7 of the state, 0 or 1, beside a reply that was read and beside refusal 15. */
    uint8_t bit7;
    /* The reply's number, 0 to 14. */
    uint8_t reply;
    /* The value that it carries, a float by its bits, a validity as 0 for no and 1 for yes. */
    uint32_t value;
    /* Where the text of a product type starts in the body: at 4, also an empty one. */
    size_t text_start;
    /* The bytes of that text. */
    size_t text_length;
} mfc_reply;

/* What feeding a receiver answers. Without a refusal, and with frame_length 0, there is no item
 * yet. */
typedef struct {
    /* The refusal's number, 0 for none. */
    uint8_t refusal;
    /* With refusals 3 and 4 the place of the wrong byte, the 7D or the bare byte, counted from
     * 0 after the 7E that opened its stretch, in the bytes as received; 65,535 for later ones
     * too. With every other answer 0. */
    uint16_t place;
    /* The length of the body that stands at the start of the lent frame. */
    size_t frame_length;
    /* The bytes taken from the piece. */
    size_t taken;
} mfc_fed;

/* What asking a receiver for its noise answers. */
typedef struct {
    /* The refusal's number, 0 for none. */
    uint8_t refusal;
    /* The bytes thrown away as noise since the receiver was made; 4,294,967,295 for more too. 0
     * with a refusal. */
    uint32_t count;
} mfc_noise;

/* What reading words answers, and checking and listing a log. */
typedef struct {
    /* The refusal's number, 0 for none. */
    uint8_t refusal;
    /* The words stored, the records of a log or the rows listed; with refusal 17 the index of
     * the first word whose CRC is wrong. */
    size_t count;
} mfc_words;

/* What comparing two logs answers. With a refusal both numbers are 0. */
typedef struct {
    /* The refusal's number, 0 for none. */
    uint8_t refusal;
    /* The places, as many as the longer log has records. */
    size_t places;
    /* The places at which the records are the same. */
    size_t same;
} mfc_compared;

/* What a field edit answers. */
typedef struct {
    /* The refusal's number, 0 for none. */
    uint8_t refusal;
    /* The register with the field changed. */
    uint16_t value;
} mfc_register;

/* What a scaled reading answers. */
typedef struct {
    /* The refusal's number, 0 for none. */
    uint8_t refusal;
    /* The reading in thousandths of the unit. */
    int32_t value;
} mfc_thousandths;

/* What a scaled reading in single precision answers. */
typedef struct {
    /* The refusal's number, 0 for none. */
    uint8_t refusal;
    /* The reading in the unit. */
    float value;
} mfc_quantity;

/* A place of the handover board's table. In a free place all numbers are 0. */
typedef struct {
    /* 0 for a free place, or one of MFC_ENTRY_* */
    uint8_t kind;
    /* One of MFC_BUS_* */
    uint8_t bus;
    /* 0 to 254 on the serial bus, 0 to 127 on I2C. */
    uint8_t address;
    /* The polls left; 0 where the entry is due. */
    uint16_t left;
} mfc_entry;

/* What listing answers. */
typedef struct {
    /* The refusal's number, 0 for none. */
    uint8_t refusal;
    /* The entries listed. */
    size_t count;
} mfc_listed;

/* The checksum of the n bytes of a body before it: 255 minus their sum modulo 256. It refuses
 * nothing. */
uint8_t mfc_checksum(const uint8_t *bytes, size_t n);

/* Writes the frame of a request. Refusals, in their order: 11 for a request over 20; 12 for an
 * address over 254 to be set, or a baud that is none of 9600, 19200, 38400, 57600 and 115200;
 * 13 for a float that is not finite; 10 for set address sent to 255; 1 where the frame is
 * longer than room (MFC_REQUEST_ROOM bytes hold any). */
mfc_written mfc_write_request(uint8_t address, uint8_t request, uint32_t value,
                              uint8_t *out, size_t room);

/* Writes the frame of a request into a buffer from start on, as one frame of a polling round;
 * all else in the buffer stays. The length is the frame's. Refusals as those of
 * mfc_write_request; 1 also where start is past the buffer. */
mfc_written mfc_write_request_at(uint8_t *buffer, size_t size, size_t start, uint8_t address,
                                 uint8_t request, uint32_t value);

/* Reads a request from the n bytes of its unstuffed body, checksum included. Refusals, in their
 * order: 5 to 8 of the body (over 259 bytes, under 4, L wrong, checksum wrong); 11 for a
 * command or subcommand not in the table; 12 for a data length not in the table, an address or
 * a baud out of range; 13 for a float that is not finite; 10 for set address sent to 255. */
mfc_request mfc_read_request(const uint8_t *body, size_t n);

/* Writes the frame of the reply to a request. The n bytes of text are those of a product type;
 * beside any other reply they are not looked at. bit7 is bit 7 of the state: 0 for no, else
 * yes. Refusals, in their order: 11 for a request over 20; 12, 13 and 10 of the request itself,
 * as of mfc_write_request; 14 for a request to 255, a reply over 15, or one that is neither
 * expected nor a device error; 12 for a raw flow or raw conductivity over 65,535, an address
 * over 254, a baud that is none of the five, an error code outside 1 to 127, or a text that
 * holds a 00 or is over 254 bytes; 13 for a float that is neither finite nor one of the three
 * codings; 1 where the frame is longer than room (MFC_REPLY_ROOM bytes hold any). A validity is
 * 0 for no, else yes, which is sent as 01. */
mfc_written mfc_write_reply(uint8_t address, uint8_t request, uint32_t value, uint8_t reply,
                            uint32_t reply_value, const uint8_t *text, size_t n, uint8_t bit7,
                            uint8_t *out, size_t room);

/* Reads the reply to a request from the n bytes of its unstuffed body, checksum included.
 * Refusals, in their order: 11 for a request over 20; 12, 13 and 10 of the request itself, as
 * of mfc_write_request; 5 to 8 of the body (over 260 bytes, under 5, L wrong, checksum wrong);
 * 14 for a request to 255, another address or command, data beside an error code, or a data
 * length not in the table; 15 for a device error; 12 for an address or a baud out of range; 13
 * for a float that is neither finite nor one of the three codings. A validity is answered as 0
 * where its byte is 0, else as 1. */
mfc_reply mfc_read_reply(uint8_t address, uint8_t request, uint32_t value,
                         const uint8_t *body, size_t n);

/* Makes a fresh receiver of a kind, MFC_KIND_REQUEST or MFC_KIND_REPLY, in the first
 * MFC_RECORD_SIZE bytes of record. Answers the refusal's number, 0 for none. Refusals, in their
 * order: 1 where size is under MFC_RECORD_SIZE; 12 for another kind. */
uint8_t mfc_receiver_fresh(uint8_t kind, uint8_t *record, size_t size);

/* Hands the n bytes of a piece to the receiver whose record is lent. silence says whether over
 * 200 ms without a byte came before them: 0 for no, any other number for yes; an empty piece
 * may carry it. It is dealt with first: a frame that was begun is cut off, refusal 9, and bytes
 * are noise until the next 7E. The call takes bytes up to and including the one that completes
 * an item, a frame or a refusal, or all of them, and none with 9. A frame's unstuffed body
 * stands at the start of frame; else frame is untouched. Refusals, in their order: 2 where size
 * is under MFC_RECORD_SIZE or a field of the record is out of its range; 1 where room is under
 * MFC_FRAME_ROOM; 9 where silence cut off bytes of a frame; else those of the bytes up to a 7E
 * that are no frame: 3 for a wrong escape or 4 for a bare 11 or 13 hex, whichever comes first,
 * with its place; then 5 to 8 of the body (too long, too short, L wrong, checksum wrong). Hand
 * in the rest again, with silence 0. Not so with 2 and 1: nothing is taken and silence is not
 * dealt with; the same call again is refused again, and the rest, an empty one too, still
 * carries the silence. */
mfc_fed mfc_feed(uint8_t *record, size_t size, uint8_t silence, const uint8_t *piece, size_t n,
                 uint8_t *frame, size_t room);

/* The count of bytes that the receiver whose record is lent has thrown away as noise: those
 * before the first 7E, and those after silence up to the next 7E. A 7E is no noise, nor are the
 * bytes of a stretch that is refused or cut off. Refusal 2 where size is under MFC_RECORD_SIZE
 * or a field of the record is out of its range. */
mfc_noise mfc_receiver_noise(const uint8_t *record, size_t size);

/* The CRC-8 of n bytes from a start value, MFC_START_LIQUID or MFC_START_SFC6; any other is
 * taken too. It refuses nothing. */
uint8_t mfc_crc(uint8_t start, const uint8_t *bytes, size_t n);

/* Reads n bytes as words, each a high byte, a low byte and their CRC from start (as in
 * mfc_crc), and stores their numbers at the start of words, an array of room numbers. Every
 * word is checked before any is stored. A sensor's reading is such a number taken as signed:
 * (int16_t)words[0]. Refusals, in their order: 16 where n is 0 or no multiple of 3; 17 where a
 * CRC is wrong; 1 where there are more words than room. */
mfc_words mfc_read_words(uint8_t start, const uint8_t *bytes, size_t n,
                         uint16_t *words, size_t room);

/* Writes n words, each as high byte, low byte and their CRC from start (as in mfc_crc): 3 n
 * bytes. Refusals, in their order: 16 where n is 0; 1 where 3 n is more than room. */
mfc_written mfc_write_words(uint8_t start, const uint16_t *words, size_t n,
                            uint8_t *out, size_t room);

/* Writes an SFC6 command: the two bytes of its code, one of the seven MFC_SFC6_*. The codes
 * E17D, 3650 and 365B take a concentration, 0 to 1000 per mille, which follows as a word with
 * CRC, 5 bytes in all; beside the others it is not looked at. Refusals, in their order: 12 for
 * a code that is none of these, or a concentration over 1000; 1 where room is less than these 2
 * or 5 bytes. */
mfc_written mfc_write_sfc6(uint16_t code, uint32_t concentration, uint8_t *out, size_t room);

/* Writes a liquid command: the byte of its code, one of the eight MFC_LIQUID_*. The codes E2
 * and E4 take the register's value, which follows as two bytes without CRC, 3 bytes in all;
 * beside the others it is not looked at. Refusals, in their order: 12 for a code that is none
 * of these; 1 where room is less than this 1 byte or these 3. */
mfc_written mfc_write_liquid(uint8_t code, uint16_t value, uint8_t *out, size_t room);

/* The user register with another calibration field, bits 6:4. Refusal 12 for a field over 4. */
mfc_register mfc_edit_user(uint16_t value, uint32_t field);

/* The advanced register with another resolution, bits 11:9. Refusal 12 for a field over 7. */
mfc_register mfc_edit_advanced(uint16_t value, uint32_t field);

/* (raw - offset) x 1000 / scale, rounded to nearest, halves away from zero. A word of
 * mfc_read_words is handed in as a signed number, (int16_t)words[0]. Refusal 18 for a scale
 * outside 1 to 32,767. */
mfc_thousandths mfc_scaled(int16_t raw, int16_t offset, int32_t scale);

/* (raw - offset) / scale in single precision. Refusal 18 for a scale outside 1 to 32,767. */
mfc_quantity mfc_scaled_float(int16_t raw, int16_t offset, int32_t scale);

/* Opens the entry of a node and kind for a lease of 1 to 65,535 polls, or renews its lease.
 * Refusals, in their order: 1 where the table has not MFC_BOARD_PLACES places; 2 where an entry
 * of it is out of range, or the same node and kind stands in it twice; 12 where bus or kind is
 * none, or the address or the lease is out of range; 19 where the entry is new and all places
 * are held. */
uint8_t mfc_board_open(mfc_entry *table, size_t places, uint8_t bus, uint8_t address,
                       uint8_t kind, uint32_t lease);

/* Closes the entry of a node and kind; where there is none, nothing is done. Refusals, in their
 * order: 1, 2 and 12 as for mfc_board_open. */
uint8_t mfc_board_close(mfc_entry *table, size_t places, uint8_t bus, uint8_t address,
                        uint8_t kind);

/* A node has restarted: both its entries are closed. Refusals, in their order: 1, 2 and 12 as
 * for mfc_board_open. */
uint8_t mfc_board_restart(mfc_entry *table, size_t places, uint8_t bus, uint8_t address);

/* One poll: it takes one from every lease above 0. An entry with 0 left is due, and stays so
 * until it is closed or renewed. Refusals, in their order: 1 and 2 as for mfc_board_open. */
uint8_t mfc_board_poll(mfc_entry *table, size_t places);

/* Lists the entries by bus (serial first), address and kind (valve first) at the start of the
 * room, and counts them; MFC_BOARD_PLACES places hold any list. The table is only read.
 * Refusals, in their order: 1 and 2 as for mfc_board_open; 1 where the room has fewer places
 * than there are entries. */
mfc_listed mfc_board_list(const mfc_entry *table, size_t places,
                          mfc_entry *entries, size_t room);

/* To be called after every reply that was read: the address and the request's number that were
 * asked, and the refusal that mfc_read_reply answered. An accepted volatile calibration
 * (command 46) opens the calibration entry of the address for a lease of polls, an accepted set
 * calibration (45) closes it; all else concerns no entry, changes nothing and is answered 0
 * where the table is good. Refusals, in their order: 1 and 2 as for mfc_board_open; 12 for a
 * request over 20, for an address out of range where an entry is to be opened or closed, and
 * for a lease out of range where one is to be opened; 19 where it is new and all places are
 * held. */
uint8_t mfc_board_reply(mfc_entry *table, size_t places, uint8_t address, uint8_t request,
                        uint8_t refusal, uint32_t lease);

/* To be called after every command that an SFC6 on I2C has acknowledged, with its code: 3FEF
 * opens the valve entry of the address for a lease of polls, 3F6E closes it, the other codes of
 * MFC_SFC6_* concern no entry. Refusals, in their order: 1 and 2 as for mfc_board_open; 12 for
 * any other code, for an address out of range where an entry is to be opened or closed, and for
 * a lease out of range where one is to be opened; 19 where it is new and all places are held. */
uint8_t mfc_board_acknowledged(mfc_entry *table, size_t places, uint8_t address, uint16_t code,
                               uint32_t lease);

/* Lays the log without records at the start of the lent file, and answers its length. Refusals:
 * 1 where the file has not that room. */
mfc_written mfc_log_empty(uint8_t *file, size_t room);

/* Adds a record of a kind of MFC_LOG_.. and a body of n bytes to the log of that length at the
 * start of the lent file, and answers the log's new length, 3 + n more. Refusals, in their
 * order: 1 where the length is past the lent file; 20 to 23 as for mfc_log_check; 22 where the
 * kind is none, or a silence mark has a body; 12 where the records would take over 65,000
 * bytes: begin the next log, and cut a body of over 64,997 bytes, which is 12 in every log; 1
 * where the file has not the room. */
mfc_written mfc_log_append(uint8_t *file, size_t room, size_t length, uint8_t kind,
                           const uint8_t *body, size_t n);

/* Checks a log, and answers how many records it has. Refusals, in their order: 20 where the
 * file has under 8 bytes, or its total is not the number of bytes before the last eight, or is
 * over 65,000; then, at the newest faulty record, 21 where the trailer is cut short or points
 * before the start, else 22 where the kind is none, or a silence mark has a body; 23 where the
 * count is not the number of records. */
mfc_words mfc_log_check(const uint8_t *file, size_t length);

/* Lists a log newest first, from the record that skip others are newer than: MFC_LOG_ROW
 * numbers a row, which are the kind, where the body starts in the file, and its length. As many
 * rows as fit are laid at the start of rows, an array of room numbers; the answer is how many,
 * 0 past the oldest record. Refusals, in their order: 20 to 23 as for mfc_log_check, and
 * nothing is listed of such a file; 1 where there is a row to lay and no room for one. */
mfc_words mfc_log_list(const uint8_t *file, size_t length, size_t skip,
                       uint16_t *rows, size_t room);

/* Compares two logs record by record, and lays a mark of MFC_LOG_SAME, MFC_LOG_DIFFER,
 * MFC_LOG_ONLY_A or MFC_LOG_ONLY_B for each place at the start of marks, the oldest record's at
 * 0; MFC_LOG_RECORDS bytes are enough for any two logs. Records are the same where kind and
 * body are. Two logs have the same records exactly if as many places are the same as there are.
 * Refusals, in their order: 20 to 23 as for mfc_log_check, of the first log and then of the
 * second; 1 where the room has fewer bytes than there are places. */
mfc_compared mfc_log_compare(const uint8_t *a, size_t a_length,
                             const uint8_t *b, size_t b_length, uint8_t *marks, size_t room);

/* Runs a log through the receivers again, oldest record first: request-side bytes to a receiver
 * of requests, reply-side bytes to one of replies, and a silence mark to both, which is also
 * one poll. A reply frame is read against the latest request frame, and skipped where there is
 * none or that one is refused as a request; an accepted reply does what mfc_board_reply does
 * with this lease, on a board that is empty at the start. The entries at the log's end are
 * listed and counted as by mfc_board_list. Refusals, in their order: 12 for a lease outside 1
 * to 65,535; 20 to 23 as for mfc_log_check; 19 where an opening met all places held, even if
 * one is free at the end; 1 where the room has fewer places than there are entries. A refusal
 * changes nothing. Only temporary calibrations on the serial bus come out, since I2C is not in
 * a log. */
mfc_listed mfc_log_replay(const uint8_t *file, size_t length, uint32_t lease,
                          mfc_entry *entries, size_t room);

#ifdef __cplusplus
}
#endif

#endif
