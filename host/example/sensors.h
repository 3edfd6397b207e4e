/* sensors.h: an SFC6 and a liquid sensor on an I2C bus, asked through the calls of bus.h. */
#ifndef SENSORS_H
#define SENSORS_H

#include "mfc.h"

/* The makers' addresses. */
enum { SFC6_DEVICE = 0x24, LIQUID_DEVICE = 0x40 };

/* What one read can give: flow, a reserved value and the status of an SFC6. */
#define MOST_WORDS 3

/* What became of one reading. */
struct reading {
    int acknowledged;            /* 0: the device is not there, or has nothing to say */
    uint8_t refusal;             /* 0: `thousandths` of the unit is the reading */
    int32_t thousandths;
    size_t word;                 /* with MFC_REFUSAL_WRONG_CRC the word, from 0, its CRC, and the one it should have */
    uint8_t crc, right_crc;
};

/* Starts the SFC6 on mixture 0 with so much of gas 0, in per mille, and selects the liquid sensor's calibration field. Returns NULL,
   or what to tell the user. */
const char *sensors_start(uint32_t concentration, uint32_t field);

/* Whether an SFC6 can have this address: 24, or one of six others by a resistor at its plug. */
int is_sfc6(uint8_t device);

/* Forces the valve of an SFC6 shut, for so many polls on the handover board, and gives it back to normal control. Both return 0 where
   the device does not acknowledge, and need a measurement that runs. */
int sfc6_shut(uint8_t device, uint32_t lease);
int sfc6_return(uint8_t device);

/* The readings: flow in litres and in millilitres a minute, temperature in degrees Celsius. */
struct reading sfc6_flow(void);
struct reading sfc6_temperature(void);
struct reading liquid_flow(void);
struct reading liquid_temperature(void);

#endif
