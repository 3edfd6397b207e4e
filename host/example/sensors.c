#include "sensors.h"

#include "bus.h"
#include "handover.h"

#define TRIES 20                 /* of a register that is read over a bad bus */

/* How a reading's word is scaled: 001, section 3.5.1 (version 5slm); 000, section 4.6, and a flow sensor's own data sheet. */
struct scale {
    int16_t offset;
    int32_t scale;
};

static const struct scale sfc6_flow_scale = { -28672, 10240 }, sfc6_temperature_scale = { 0, 200 };
static const struct scale liquid_flow_scale = { 0, 120 }, liquid_temperature_scale = { 0, 10 };

/* Reads words from a device; the first is the reading's. */
static struct reading read_words(uint8_t device, uint8_t start, uint16_t *words, size_t count)
{
    struct reading reading = { 0, 0, 0, 0, 0, 0 };
    uint8_t bytes[3 * MOST_WORDS];
    mfc_words read;

    if (!bus_read(device, bytes, 3 * count))
        return reading;
    reading.acknowledged = 1;
    read = mfc_read_words(start, bytes, 3 * count, words, count);
    reading.refusal = read.refusal;
    if (read.refusal == MFC_REFUSAL_WRONG_CRC) {
        reading.word = read.count;
        reading.crc = bytes[3 * read.count + 2];
        reading.right_crc = mfc_crc(start, bytes + 3 * read.count, 2);
    }
    return reading;
}

static struct reading read_scaled(uint8_t device, uint8_t start, size_t count, struct scale scale)
{
    uint16_t words[MOST_WORDS];
    struct reading reading = read_words(device, start, words, count);

    if (reading.acknowledged && reading.refusal == 0) {
        /* a reading is signed: the word as it stands, taken as a number of 16 bits with a sign */
        mfc_thousandths scaled = mfc_scaled((int16_t)words[0], scale.offset, scale.scale);

        reading.refusal = scaled.refusal;
        reading.thousandths = scaled.value;
    }
    return reading;
}

/* ---- the SFC6 ---- */

/* 001, section 3.1 */
int is_sfc6(uint8_t device)
{
    return (device >= 0x20 && device <= 0x24) || device == 0x41 || device == 0x42;
}

/* The one way by which a command goes to an SFC6, so that the handover board is told of each that is acknowledged. */
static int order_sfc6(uint8_t device, uint16_t code, uint32_t concentration, uint32_t lease)
{
    uint8_t out[5];
    mfc_written written = mfc_write_sfc6(code, concentration, out, sizeof out);

    if (written.refusal != 0 || !bus_write(device, out, written.length))
        return 0;
    handover_acknowledged(device, code, lease);
    return 1;
}

int sfc6_shut(uint8_t device, uint32_t lease) { return order_sfc6(device, MFC_SFC6_SHUT_VALVE, 0, lease); }
int sfc6_return(uint8_t device) { return order_sfc6(device, MFC_SFC6_NORMAL_CONTROL, 0, NO_LEASE); }

struct reading sfc6_flow(void)
{
    return read_scaled(SFC6_DEVICE, MFC_START_SFC6, 3, sfc6_flow_scale);
}

struct reading sfc6_temperature(void)
{
    struct reading reading = { 0, 0, 0, 0, 0, 0 };

    if (order_sfc6(SFC6_DEVICE, MFC_SFC6_POINT_TO_TEMPERATURE, 0, NO_LEASE))
        reading = read_scaled(SFC6_DEVICE, MFC_START_SFC6, 1, sfc6_temperature_scale);
    /* Back at the flow, whatever came of it. */
    if (!order_sfc6(SFC6_DEVICE, MFC_SFC6_POINT_BACK, 0, NO_LEASE))
        reading.acknowledged = 0;
    return reading;
}

/* ---- the liquid sensor ---- */

static int order_liquid(uint8_t code, uint16_t value)
{
    uint8_t out[3];
    mfc_written written = mfc_write_liquid(code, value, out, sizeof out);

    return written.refusal == 0 && bus_write(LIQUID_DEVICE, out, written.length);
}

static struct reading measure_liquid(uint8_t code, struct scale scale)
{
    struct reading nothing = { 0, 0, 0, 0, 0, 0 };

    return order_liquid(code, 0) ? read_scaled(LIQUID_DEVICE, MFC_START_LIQUID, 1, scale) : nothing;
}

struct reading liquid_flow(void) { return measure_liquid(MFC_LIQUID_FLOW, liquid_flow_scale); }
struct reading liquid_temperature(void) { return measure_liquid(MFC_LIQUID_TEMPERATURE, liquid_temperature_scale); }

static int read_user_register(uint16_t *value)
{
    for (int i = 0; i < TRIES; i++) {
        struct reading reading = { 0, 0, 0, 0, 0, 0 };

        if (order_liquid(MFC_LIQUID_READ_USER, 0))
            reading = read_words(LIQUID_DEVICE, MFC_START_LIQUID, value, 1);
        if (reading.acknowledged && reading.refusal == 0)
            return 1;
    }
    return 0;
}

/* A register's write carries no CRC, so it is read back (000, section 5.2). */
static int select_field(uint32_t field)
{
    uint16_t found, kept;
    mfc_register edited;

    if (!read_user_register(&found))
        return 0;
    edited = mfc_edit_user(found, field);
    return edited.refusal == 0 && order_liquid(MFC_LIQUID_WRITE_USER, edited.value) && read_user_register(&kept)
        && kept == edited.value;
}

const char *sensors_start(uint32_t concentration, uint32_t field)
{
    if (!order_sfc6(SFC6_DEVICE, MFC_SFC6_START_MIXTURE0, concentration, NO_LEASE))
        return "the SFC6 does not start: check its plug, its address and the concentration (0 to 1000)";
    if (!select_field(field))
        return "the liquid sensor's calibration field cannot be set: check its plug, its address and the field (0 to 4)";
    return NULL;
}
