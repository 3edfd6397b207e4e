/* commands: asks a rack every request there is, changes what can be changed, and compares each answer with what the maker's
 * paper says must come. Used by the test beside it. */
#include "line.h"
#include "truth.h"
#include "words.h"

#include <stdio.h>
#include <string.h>

#define TIMEOUT_MS 60
#define AT 5                     /* the controller that is asked */
#define FREE 30                  /* an address that none has */
#define ONE_FIFTH 0x3E4CCCCDu

static struct line line;
static unsigned checks, wrong;

static void check(int good, const char *what, const char *found)
{
    checks++;
    if (good)
        return;
    wrong++;
    (void)printf("commands: %s: %s\n", what, found);
}

static void check_answer(struct answer answer, enum ending ending, uint8_t refusal, uint8_t code, uint8_t reply, uint32_t value,
                         const char *what)
{
    char found[96];
    mfc_reply got = answer.reply;

    (void)snprintf(found, sizeof found, "ending %d, refusal %u, code %u, reply %u, value %lu", (int)answer.ending, got.refusal,
                   got.code, got.reply, (unsigned long)got.value);
    check(answer.ending == ending && got.refusal == refusal && got.code == code && got.reply == reply && got.value == value,
          what, found);
}

/* The answer that must come, with its value. */
static void expect(uint8_t address, uint8_t request, uint32_t value, uint8_t reply, uint32_t answer, const char *what)
{
    check_answer(line_ask(&line, address, request, value), ANSWERED, 0, 0, reply, answer, what);
}

static void expect_done(uint8_t address, uint8_t request, uint32_t value, const char *what)
{
    expect(address, request, value, MFC_REPLY_ACKNOWLEDGED, 0, what);
}

static void expect_error(uint8_t address, uint8_t request, uint32_t value, uint8_t code, const char *what)
{
    check_answer(line_ask(&line, address, request, value), REFUSED, MFC_REFUSAL_DEVICE_ERROR, code, 0, 0, what);
}

static void expect_refusal(uint8_t address, uint8_t request, uint32_t value, uint8_t refusal, const char *what)
{
    check_answer(line_ask(&line, address, request, value), REFUSED, refusal, 0, 0, 0, what);
}

static void expect_silence(uint8_t address, uint8_t request, uint32_t value, const char *what)
{
    check_answer(line_ask(&line, address, request, value), SILENT, 0, 0, 0, 0, what);
}

/* A body that the library does not write, sent by hand. The answer must be an error's frame with `code`, or none for 0. */
static void expect_code(const uint8_t *wire, size_t n, uint8_t code, const char *what)
{
    uint8_t refusal = 0;
    size_t length = line_send(&line, wire, n) ? line_next(&line, &refusal) : 0;

    if (code == 0)
        check(length == 0 && refusal == 0, what, "an answer came");
    else
        check(length == 5 && line.frame[0] == wire[1] && line.frame[1] == wire[2] && line.frame[2] == code
              && line.frame[3] == 0, what, "another answer, or none");
}

static void readings(void)
{
    expect(AT, MFC_REQUEST_RAW_FLOW, 0, MFC_REPLY_RAW_FLOW, true_raw_flow(AT), "raw flow");
    expect(AT, MFC_REQUEST_RAW_CONDUCTIVITY, 0, MFC_REPLY_RAW_CONDUCTIVITY, true_raw_conductivity(AT), "raw conductivity");
    expect(AT, MFC_REQUEST_TEMPERATURE, 0, MFC_REPLY_TEMPERATURE, true_temperature(AT), "temperature");
    expect(AT, MFC_REQUEST_NUMBER_OF_CALIBRATIONS, 0, MFC_REPLY_NUMBER_OF_CALIBRATIONS, CALIBRATIONS, "number of calibrations");
    expect(AT, MFC_REQUEST_VALIDITY, 0, MFC_REPLY_VALIDITY, 1, "validity of a place with a calibration");
    expect(AT, MFC_REQUEST_VALIDITY, 2, MFC_REPLY_VALIDITY, 0, "validity of an empty place");
    expect(AT, MFC_REQUEST_VALIDITY, 0x7E7D1113, MFC_REPLY_VALIDITY, 0, "validity of a place past the end");
    expect(OTHER_YES_AT, MFC_REQUEST_VALIDITY, 0, MFC_REPLY_VALIDITY, 1, "validity from a controller that says yes by 2A");
    check(line.frame[4] == OTHER_YES, "the byte of that validity", "not 2A");
    expect(OTHER_YES_AT, MFC_REQUEST_VALIDITY, 2, MFC_REPLY_VALIDITY, 0, "its validity of an empty place");
}

static void setpoint_and_settings(void)
{
    expect(AT, MFC_REQUEST_GET_SETPOINT, 0, MFC_REPLY_SETPOINT, true_setpoint(AT), "setpoint at the start");
    expect(AT, MFC_REQUEST_MEASURED_VALUE, 0, MFC_REPLY_MEASURED_VALUE, true_measured(AT), "measured value at the start");
    expect_done(AT, MFC_REQUEST_SET_SETPOINT, ONE_FIFTH, "set setpoint");
    expect(AT, MFC_REQUEST_GET_SETPOINT, 0, MFC_REPLY_SETPOINT, ONE_FIFTH, "setpoint after it was set");
    expect(AT, MFC_REQUEST_MEASURED_VALUE, 0, MFC_REPLY_MEASURED_VALUE, ONE_FIFTH, "measured value follows the setpoint");
    expect(AT + 1, MFC_REQUEST_GET_SETPOINT, 0, MFC_REPLY_SETPOINT, true_setpoint(AT + 1), "the neighbour's setpoint");
    expect(AT, MFC_REQUEST_GET_GAIN, 0, MFC_REPLY_GAIN, TRUE_GAIN, "gain at the start");
    expect_done(AT, MFC_REQUEST_SET_GAIN, ONE_FIFTH, "set gain");
    expect(AT, MFC_REQUEST_GET_GAIN, 0, MFC_REPLY_GAIN, ONE_FIFTH, "gain after it was set");
    expect(AT, MFC_REQUEST_GET_INIT_STEP, 0, MFC_REPLY_INIT_STEP, TRUE_INIT_STEP, "init step at the start");
    expect_done(AT, MFC_REQUEST_SET_INIT_STEP, 0x7D7E1113, "set init step");
    expect(AT, MFC_REQUEST_GET_INIT_STEP, 0, MFC_REPLY_INIT_STEP, 0x7D7E1113, "init step after it was set");
}

static void calibrations(void)
{
    expect(AT, MFC_REQUEST_GET_CALIBRATION, 0, MFC_REPLY_CALIBRATION, true_calibration(AT), "calibration at the start");
    expect_done(AT, MFC_REQUEST_SET_CALIBRATION, true_calibration(AT), "set the calibration that is set");
    expect(AT, MFC_REQUEST_GET_SETPOINT, 0, MFC_REPLY_SETPOINT, ONE_FIFTH, "setpoint stays with the calibration");
    expect_done(AT, MFC_REQUEST_SET_CALIBRATION, 19, "set calibration");
    expect(AT, MFC_REQUEST_GET_CALIBRATION, 0, MFC_REPLY_CALIBRATION, 19, "calibration after it was set");
    expect(AT, MFC_REQUEST_FULL_SCALE, 0, MFC_REPLY_FULL_SCALE, true_full_scale(19), "full scale of the calibration");
    expect(AT, MFC_REQUEST_GET_SETPOINT, 0, MFC_REPLY_SETPOINT, 0, "setpoint is 0 after another calibration");
    expect_error(AT, MFC_REQUEST_SET_CALIBRATION, 17, 51, "set an empty calibration");
    expect_done(AT, MFC_REQUEST_VOLATILE_CALIBRATION, 18, "volatile calibration");
    expect(AT, MFC_REQUEST_GET_CALIBRATION, 0, MFC_REPLY_CALIBRATION, 18, "calibration after the volatile one");
    expect_error(AT, MFC_REQUEST_VOLATILE_CALIBRATION, 0xFFFFFFFF, 51, "volatile calibration past the end");
    expect(AT, MFC_REQUEST_GET_CALIBRATION, 0, MFC_REPLY_CALIBRATION, 18, "calibration after a refused one");
}

static void addresses(void)
{
    expect(AT, MFC_REQUEST_GET_ADDRESS, 0, MFC_REPLY_ADDRESS, AT, "address");
    expect_done(AT, MFC_REQUEST_SET_ADDRESS, FREE, "set address, answered from the old one");
    expect(FREE, MFC_REQUEST_GET_ADDRESS, 0, MFC_REPLY_ADDRESS, FREE, "address after it was set");
    expect_silence(AT, MFC_REQUEST_GET_ADDRESS, 0, "nobody at the old address");
    expect(FREE, MFC_REQUEST_RAW_FLOW, 0, MFC_REPLY_RAW_FLOW, true_raw_flow(AT), "the same controller at the new address");
    expect_done(FREE, MFC_REQUEST_SET_ADDRESS, AT, "set address back");
}

static void baud_rates(void)
{
    static const uint32_t rates[] = { 9600, 19200, 38400, 57600, 115200 };

    expect(AT, MFC_REQUEST_GET_BAUD, 0, MFC_REPLY_BAUD, TRUE_BAUD, "baud rate");
    for (size_t i = 0; i < sizeof rates / sizeof rates[0]; i++) {
        expect_done(AT, MFC_REQUEST_SET_BAUD, rates[i], "set baud rate");
        check(line_speed(&line, rates[i]), "the line's rate", "not taken");
        expect(AT, MFC_REQUEST_GET_BAUD, 0, MFC_REPLY_BAUD, rates[i], "baud rate after it was set");
    }
    check(line_speed(&line, 9600), "the line's rate", "not taken");
    expect_silence(AT, MFC_REQUEST_GET_BAUD, 0, "nobody at another rate");
    check(line_speed(&line, TRUE_BAUD), "the line's rate", "not taken");
}

static void texts(void)
{
    struct answer answer = line_ask(&line, AT, MFC_REQUEST_PRODUCT_TYPE, 0);
    size_t n = sizeof TRUE_TYPE - 1;

    check_answer(answer, ANSWERED, 0, 0, MFC_REPLY_PRODUCT_TYPE, 0, "product type");
    check(answer.reply.text_length == n && memcmp(line.frame + answer.reply.text_start, TRUE_TYPE, n) == 0,
          "product type's text", "another text");
}

static void broadcasts(void)
{
    expect_silence(255, MFC_REQUEST_SET_GAIN, ONE_FIFTH, "a gain for all is not answered");
    for (uint8_t i = 0; i < RACK; i++)
        expect(i, MFC_REQUEST_GET_GAIN, 0, MFC_REPLY_GAIN, ONE_FIFTH, "gain after it was set for all");
}

static void refused_before_sending(void)
{
    expect_refusal(AT, MFC_REQUEST_PRODUCT_TYPE + 1, 0, MFC_REFUSAL_UNKNOWN_COMMAND, "a request number over 20");
    expect_refusal(AT, MFC_REQUEST_SET_ADDRESS, 255, MFC_REFUSAL_OUT_OF_RANGE, "address 255");
    expect_refusal(AT, MFC_REQUEST_SET_BAUD, 14400, MFC_REFUSAL_OUT_OF_RANGE, "a baud rate that is not one of the five");
    expect_refusal(AT, MFC_REQUEST_SET_SETPOINT, 0x7F800000, MFC_REFUSAL_BAD_FLOAT, "an infinite setpoint");
    expect_refusal(255, MFC_REQUEST_SET_ADDRESS, 7, MFC_REFUSAL_ADDRESS_BROADCAST, "set address for all");
}

static void frames_by_hand(void)
{
    static const uint8_t reset[] = { 0x7E, 0x00, 0xD3, 0x00, 0x2C, 0x7E };
    static const uint8_t averaged[] = { 0x7E, 0x00, 0x08, 0x02, 0x7D, 0x31, 0x64, 0x80, 0x7E };
    static const uint8_t short_set[] = { 0x7E, 0x00, 0x45, 0x01, 0x01, 0xB8, 0x7E };
    static const uint8_t odd_rate[] = { 0x7E, 0x00, 0x91, 0x04, 0x00, 0x00, 0x38, 0x40, 0xF2, 0x7E };
    static const uint8_t not_a_number[] = { 0x7E, 0x00, 0x00, 0x05, 0x01, 0x7F, 0xC0, 0x00, 0x00, 0xBA, 0x7E };
    static const uint8_t bad_sum[] = { 0x7E, 0x00, 0x45, 0x00, 0xBB, 0x7E };
    static const uint8_t to_all[] = { 0x7E, 0xFF, 0xD3, 0x00, 0x2D, 0x7E };

    expect_code(reset, sizeof reset, 2, "a command that is not known");
    expect_code(averaged, sizeof averaged, 2, "a subcommand that is not known");
    expect_code(short_set, sizeof short_set, 1, "a wrong data length");
    expect_code(odd_rate, sizeof odd_rate, 4, "a baud rate out of range");
    expect_code(not_a_number, sizeof not_a_number, 4, "a setpoint that is not a number");
    expect_code(bad_sum, sizeof bad_sum, 0, "a wrong checksum is not answered");
    expect_code(to_all, sizeof to_all, 0, "an unknown command for all is not answered");
}

static void expect_noise(uint32_t count, const char *words)
{
    char text[128];

    noise_words(count, text, sizeof text);
    check(strcmp(text, words) == 0, words, text);
}

/* No line brings as much as the limit in a test: it is laid into the record here, the highest byte first. */
static void noise(void)
{
    check(line_noise(&line) == 0, "a good line", "noise is counted");
    memset(line.record + 4, 0xFF, 4);
    check(line_noise(&line) == 4294967295u, "noise at its limit", "another count");
    expect(AT, MFC_REQUEST_GET_ADDRESS, 0, MFC_REPLY_ADDRESS, AT, "address after much noise");
    line.record[1] = 5;
    check(line_noise(&line) == 0, "noise of a spoilt record", "a count");
    (void)mfc_receiver_fresh(MFC_KIND_REPLY, line.record, sizeof line.record);
    expect(AT, MFC_REQUEST_GET_ADDRESS, 0, MFC_REPLY_ADDRESS, AT, "address after a spoilt record");
    expect_noise(0, "no noise since the start");
    expect_noise(1, "1 byte of noise since the start: swap the transceiver or check the terminations");
    expect_noise(312, "312 bytes of noise since the start: swap the transceiver or check the terminations");
    expect_noise(4294967294u, "4294967294 bytes of noise since the start: swap the transceiver or check the terminations");
    expect_noise(4294967295u, "4294967295 or more bytes of noise since the start: swap the transceiver or check the terminations");
}

/* What the line brings next: a frame of `length` bytes, a refusal, or neither. */
static void expect_item(size_t length, uint8_t refusal, const char *what)
{
    char found[64];
    uint8_t refused;
    size_t n = line_next(&line, &refused);

    (void)snprintf(found, sizeof found, "length %lu, refusal %u", (unsigned long)n, refused);
    check(n == length && refused == refusal, what, found);
}

/* As if these bytes had just come. */
static void arrive(const uint8_t *bytes, size_t n)
{
    memcpy(line.bytes, bytes, n);
    line.start = 0;
    line.end = n;
}

/* An answer is 7E 05 90 00 01 05 64 7E. Behind silence its rest is noise, up to the 7E. */
static void silences(void)
{
    static const uint8_t begun[] = { 0x7E, AT, 0x90 };
    static const uint8_t rest[] = { 0x00, 0x01, AT, 0x64, 0x7E };

    arrive(begun, sizeof begun);
    expect_item(0, MFC_REFUSAL_CUT_BY_SILENCE, "an answer cut off by silence");
    check(line.silence == 0, "silence that was dealt with", "it is to come again");
    arrive(rest, sizeof rest);
    expect_item(0, 0, "the rest of an answer behind silence");
    check(line_noise(&line) == 4, "the rest of an answer behind silence", "another number of bytes is noise");
    arrive(begun, 1);
    expect_item(0, 0, "a lone 7E before silence");
}

/* A request is 7E 05 90 00 6A 7E. The rack takes 200 ms without a byte as silence, and what comes then as noise. */
static void silences_between_requests(void)
{
    static const uint8_t begun[] = { 0x7E, AT, 0x90 };
    static const uint8_t rest[] = { 0x00, 0x6A, 0x7E };

    expect_code(begun, sizeof begun, 0, "a part of a request");
    for (int waited = 0; waited < 400; waited += TIMEOUT_MS)
        expect_item(0, 0, "a part of a request, and silence");
    expect_code(rest, sizeof rest, 0, "the rest of a request behind silence");
    expect(AT, MFC_REQUEST_GET_ADDRESS, 0, MFC_REPLY_ADDRESS, AT, "address behind silence");
}

/* With a spoilt record every question ends, and none is sent. Where bytes are waited for, silence and bytes are kept: they are dealt with, in
   their order, when the record is a good one. */
static void faults(void)
{
    static const uint8_t begun[] = { 0x7E, AT, 0x90 };
    static const uint8_t come[] = { 0x00, 0x01, 0x7E, AT, 0x90, 0x00, 0x01, AT, 0x64, 0x7E };
    uint32_t noise_before = line_noise(&line);
    uint8_t mode = line.record[1];

    line.record[1] = 5;
    for (int i = 0; i < 3; i++)
        check_answer(line_ask(&line, AT, MFC_REQUEST_GET_ADDRESS, 0), OWN_FAULT, MFC_REFUSAL_BAD_RECORD, 0, 0, 0,
                     "address with a spoilt record");
    line.record[1] = mode;
    expect_item(0, 0, "questions that were not sent");
    expect(AT, MFC_REQUEST_GET_ADDRESS, 0, MFC_REPLY_ADDRESS, AT, "address with the record as it was");

    (void)mfc_feed(line.record, sizeof line.record, 0, begun, sizeof begun, line.frame, sizeof line.frame);
    line.silence = 1;
    arrive(come, sizeof come);
    mode = line.record[1];
    line.record[1] = 5;
    for (int i = 0; i < 3; i++)
        expect_item(0, MFC_REFUSAL_BAD_RECORD, "silence and bytes with a spoilt record");
    line.record[1] = mode;
    expect_item(0, MFC_REFUSAL_CUT_BY_SILENCE, "the same silence, with the record as it was");
    expect_item(6, 0, "the answer behind it");
    check(line_noise(&line) == noise_before + 2, "the bytes between them", "another number is noise");
}

int main(int argc, char **argv)
{
    const char *fault = argc == 2 ? line_open(&line, argv[1], TIMEOUT_MS) : "give the rack's terminal as the one argument";

    if (fault != NULL) {
        (void)fprintf(stderr, "commands: %s\n", fault);
        return 3;
    }
    readings();
    setpoint_and_settings();
    calibrations();
    addresses();
    baud_rates();
    texts();
    broadcasts();
    refused_before_sending();
    frames_by_hand();
    noise();
    silences();
    silences_between_requests();
    faults();
    line_close(&line);
    (void)printf("commands: %u checks, %u wrong\n", checks, wrong);
    return wrong != 0;
}
