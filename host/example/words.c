#include "words.h"

#include "mfc.h"

#include <stdio.h>
#include <string.h>

/* A number, what it says, and what to do. */
struct word {
    uint8_t number;
    const char *says;
    const char *advice;
};

#define CABLE "check the cable, its 120 ohm terminations and the earth, then poll again"
#define PROGRAM "a fault of this program: report it"
#define MOVE "move it away, or give another FILE"

static const struct word refusals[] = {
    { MFC_REFUSAL_NO_ROOM, "lent room too small, or a table not of 32 places", PROGRAM },
    { MFC_REFUSAL_BAD_RECORD, "receiver record or board's table damaged", PROGRAM },
    { MFC_REFUSAL_BAD_ESCAPE, "escape byte with no right byte behind it", CABLE },
    { MFC_REFUSAL_BARE_CONTROL, "bare XON or XOFF byte", "switch off software flow control in the adapter, " CABLE },
    { MFC_REFUSAL_BODY_TOO_LONG, "answer too long", CABLE },
    { MFC_REFUSAL_BODY_TOO_SHORT, "answer too short", CABLE },
    { MFC_REFUSAL_WRONG_LENGTH, "length byte wrong", CABLE },
    { MFC_REFUSAL_WRONG_CHECKSUM, "checksum wrong", CABLE },
    { MFC_REFUSAL_CUT_BY_SILENCE, "answer cut off by silence", "check the controller's power and its plug, or give a longer --timeout" },
    { MFC_REFUSAL_ADDRESS_BROADCAST, "set address sent to all", "address one controller" },
    { MFC_REFUSAL_UNKNOWN_COMMAND, "request unknown", PROGRAM },
    { MFC_REFUSAL_OUT_OF_RANGE, "value out of its range", "check that the controller is of the SFC6 family and its firmware is current" },
    { MFC_REFUSAL_BAD_FLOAT, "float not allowed", "the controller's reading is broken: restart it" },
    { MFC_REFUSAL_FOREIGN_REPLY, "answer to another request", "give a longer --timeout and check that no two controllers share an address" },
    { MFC_REFUSAL_DEVICE_ERROR, "controller reports an error", "see its code" },
    { MFC_REFUSAL_BAD_WORD_COUNT, "no words, or a part of one", PROGRAM },
    { MFC_REFUSAL_WRONG_CRC, "CRC wrong", "check the bus cable and its pull-ups, then poll again" },
    { MFC_REFUSAL_BAD_SCALE, "scale out of its range", PROGRAM },
    { MFC_REFUSAL_BOARD_FULL, "all 32 places of the board are held",
      "write it down by hand, close another entry, then give the order again" },
    { MFC_REFUSAL_BAD_TOTAL, "the file's length is not what its end says, or too long for a log", MOVE },
    { MFC_REFUSAL_BAD_TRAILER, "a record would begin before the file does", MOVE },
    { MFC_REFUSAL_BAD_KIND, "a record of no known kind, or a silence mark with bytes", MOVE },
    { MFC_REFUSAL_WRONG_COUNT, "the file's end has another number of records", MOVE },
};

static const struct word codes[] = {
    { 1, "illegal data size", "check the firmware's version" },
    { 2, "unknown command", "check the firmware's version" },
    { 4, "parameter out of range", "check the value sent" },
    { 41, "I2C not acknowledged", "restart the controller" },
    { 42, "I2C hold not released", "restart the controller" },
    { 43, "I2C checksum wrong", "restart the controller" },
    { 44, "sensor data not written", "write it again" },
    { 45, "sensor loop not running", "select a valid calibration" },
    { 51, "no valid calibration there", "select a valid calibration" },
    { 66, "sensor busy", "poll again, not before 300 ms after power-up" },
    { 67, "not allowed in this state", "check what the controller is doing" },
    { 127, "fatal error", "restart the controller, and replace it if this comes again" },
};

#define COUNT(table) (sizeof (table) / sizeof (table)[0])

static const struct word *find(const struct word *table, size_t n, uint8_t number)
{
    static const struct word unknown = { 0, "unknown number", "see the maker's manual" };

    for (size_t i = 0; i < n; i++)
        if (table[i].number == number)
            return &table[i];
    return &unknown;
}

const char *refusal_words(uint8_t refusal) { return find(refusals, COUNT(refusals), refusal)->says; }
const char *refusal_advice(uint8_t refusal) { return find(refusals, COUNT(refusals), refusal)->advice; }
const char *code_words(uint8_t code) { return find(codes, COUNT(codes), code)->says; }
const char *code_advice(uint8_t code) { return find(codes, COUNT(codes), code)->advice; }

uint32_t bits_of(float value)
{
    uint32_t bits;

    memcpy(&bits, &value, sizeof bits);
    return bits;
}

float float_of(uint32_t bits)
{
    float value;

    memcpy(&value, &bits, sizeof value);
    return value;
}

void reading_words(uint32_t bits, char *text, size_t room)
{
    if (bits == 0xFFFFFFFFu)
        (void)snprintf(text, room, "invalid");
    else if (bits == 0x7F800000u)
        (void)snprintf(text, room, "+infinity");
    else if (bits == 0xFF800000u)
        (void)snprintf(text, room, "-infinity");
    else
        (void)snprintf(text, room, "%.9g", (double)float_of(bits));
}

void thousandths_words(int32_t thousandths, char *text, size_t room)
{
    long size = thousandths < 0 ? -(long)thousandths : thousandths;

    (void)snprintf(text, room, "%s%ld.%03ld", thousandths < 0 ? "-" : "", size / 1000, size % 1000);
}

void noise_words(uint32_t count, char *text, size_t room)
{
    if (count == 0)
        (void)snprintf(text, room, "no noise since the start");
    else
        (void)snprintf(text, room, "%lu%s %s of noise since the start: swap the transceiver or check the terminations",
                       (unsigned long)count, count == UINT32_MAX ? " or more" : "", count == 1 ? "byte" : "bytes");
}
