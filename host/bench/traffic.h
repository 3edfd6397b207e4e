/* traffic.h: bytes to measure on, the same in every run. */
#ifndef TRAFFIC_H
#define TRAFFIC_H

#include "mfc.h"

#include <stddef.h>
#include <stdint.h>

#define TRAFFIC 65536

/* One question of a polling round and the body that answers it. */
struct poll {
    uint8_t address, request;
    uint32_t value;              /* of the answer */
    uint8_t body[MFC_FRAME_ROOM];
    size_t length;
};

#define POLLS 48

/* A round over the addresses 0 to 23: measured value and calibration of each. */
void polling_round(struct poll *polls);

/* What a rack answers in round after round, whole frames up to `room` bytes. Returns how many bytes. */
size_t polling_traffic(uint8_t *out, size_t room);

/* Answers in which every byte of address and data needs an escape, some of them product types of 254 letters. */
size_t escape_traffic(uint8_t *out, size_t room);

/* Polling traffic with a damaged byte every so often, so that every refusal of the receiver arises. */
size_t damaged_traffic(uint8_t *out, size_t room);

/* A stretch between two 7E with a fault at this place, of plain bytes and escapes before it: escapes at every `every`th turn, 0 for none.
   The fault is one of FAULTS, those under BARE_FAULTS of refusal 4, the others of 3. Returns the bytes, place + 4. */
#define FAULTS 6
#define BARE_FAULTS 3
size_t broken_stretch(uint8_t *out, size_t place, size_t every, unsigned fault);

/* Such stretches one after the other, some of them over 260 and over 520 bytes long. */
size_t broken_traffic(uint8_t *out, size_t room);

/* A random number below n. Its low bits have no short period either: the processor would learn to predict the jumps that depend on
   them. */
uint32_t any(uint32_t n);

/* Random bytes, such bytes without a 7E, and words of 3 bytes with good CRCs. */
void random_bytes(uint8_t *out, size_t n);
void noise_bytes(uint8_t *out, size_t n);
void good_words(uint8_t start, uint8_t *out, size_t words);

#endif
