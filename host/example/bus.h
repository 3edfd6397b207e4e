/* bus.h: the two calls that the driver of an I2C bus has. The header byte, address and direction, is the driver's own. Both return
 * 0 where the device does not acknowledge. board.c has them for a simulated board; a plant's program links those of its adapter. */
#ifndef BUS_H
#define BUS_H

#include <stddef.h>
#include <stdint.h>

int bus_write(uint8_t device, const uint8_t *bytes, size_t n);
int bus_read(uint8_t device, uint8_t *bytes, size_t n);

#endif
