/* truth.h: what the rack's controllers know when it starts, each derived from its first address, and what the board's sensors do. */
#ifndef TRUTH_H
#define TRUTH_H

#include <stdint.h>

#define RACK 24
#define MOST_CONTROLLERS 255
#define CALIBRATIONS 32u

/* Two of three places hold a calibration. */
static inline int true_validity(uint32_t index)
{
    return index < CALIBRATIONS && index % 3 != 2;
}

/* The maker's true is any of 1 to 255: the controller that starts with this address says it by 2A, the others by 01. */
#define OTHER_YES_AT 7
#define OTHER_YES 0x2A

/* A valid place for every address. */
static inline uint32_t true_calibration(uint8_t address)
{
    return (address * 7u % 10u) * 3u + address % 2u;
}

/* Setpoints, by their bits: round numbers at even addresses, bytes that need stuffing at odd ones. */
static inline uint32_t true_setpoint(uint8_t address)
{
    return address % 2 == 0 ? 0x41200000u + address * 0x00080000u : 0x417D1113u + address * 0x01000000u / 32u;
}

/* A controller that settles exactly: it measures its setpoint. */
static inline uint32_t true_measured(uint8_t address)
{
    return true_setpoint(address);
}

static inline uint32_t true_raw_flow(uint8_t address)
{
    return (0x1100u + address * 257u) % 0x10000u;
}

static inline uint32_t true_raw_conductivity(uint8_t address)
{
    return 0x7D7Eu - address;
}

/* Degrees, as a float's bits: 20.0 and a little over. */
static inline uint32_t true_temperature(uint8_t address)
{
    return 0x41A00000u + address * 0x00010000u;
}

/* 20.0 times a power of two, as a float's bits. */
static inline uint32_t true_full_scale(uint32_t calibration)
{
    return 0x41A00000u + (calibration % 4u) * 0x00800000u;
}

#define TRUE_GAIN 0x3F800000u
#define TRUE_INIT_STEP 0x3F000000u
#define TRUE_BAUD 115200u
#define TRUE_TYPE "SFC6000-5slm"

/* The sensors' words, and what a supervisory program should print for them: (-15872 + 28672) / 10240, 4700 / 200, -410 / 120
   and -7 / 10, in thousandths. */
#define TRUE_SFC6_FLOW (-15872)
#define TRUE_SFC6_TEMPERATURE 4700
#define TRUE_LIQUID_FLOW (-410)
#define TRUE_LIQUID_TEMPERATURE (-7)
#define TRUE_USER_REGISTER 0x8E71
#define TRUE_SENSORS \
    "sensor SFC6: flow 1.250 l/min; temperature 23.500 C\n" \
    "sensor liquid: flow -3.417 ml/min; temperature -0.700 C\n"

#endif
