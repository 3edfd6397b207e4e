/* damage.h: what can happen to bytes on a line, by chance or every so often. */
#ifndef DAMAGE_H
#define DAMAGE_H

#include <stddef.h>
#include <stdint.h>

/* How often something strikes: with a chance, or at every Nth place. */
struct rate {
    double chance;               /* 0 to 1, where `every` is 0 */
    unsigned long every;
    unsigned long seen;
};

/* All that may be done to an answer. */
struct damage {
    struct rate drop, flip;                          /* for each byte */
    struct rate noise, cut, pause, late, held, wrong; /* for each answer */
    size_t before;                                   /* the bytes of each noise, known ones before the answer; 0 for random noise */
    size_t put_at;                                   /* the byte of every answer that becomes another; 0, the opening 7E, for none */
    uint8_t put_byte;                                /* that other */
    uint64_t state;                                  /* of the random numbers */
};

/* Reads "0.01" (a chance) or "1/100" (exactly every 100th). Returns 0 if `text` is neither. */
int read_rate(const char *text, struct rate *rate);

/* Reads "8=11": the place of a byte in an answer, counted from 0 behind the opening 7E, and in hexadecimal what it becomes. Returns 0 if
   `text` is no such thing. */
int read_put(const char *text, struct damage *damage);

/* Whether this place is struck. */
int strikes(struct damage *damage, struct rate *rate);

/* A number under `limit`, which is not 0. */
uint32_t random_under(struct damage *damage, uint32_t limit);

/* Passes n bytes over the line: some are dropped, some get a bit flipped. `out` has n bytes of room. Returns how many come out,
   and raises `*struck` for each that was touched. */
size_t pass_over(struct damage *damage, const uint8_t *bytes, size_t n, uint8_t *out, unsigned *struck);

/* Puts the one byte into an answer of n bytes, if it is so long, and raises `*struck` where that changes it. */
void put_over(const struct damage *damage, uint8_t *bytes, size_t n, unsigned *struck);

/* Puts 1 to 8 random bytes before, inside or behind n bytes in a buffer with 8 more of room, or known ones before them. Returns the new
   length. */
size_t add_noise(struct damage *damage, uint8_t *bytes, size_t n);

#define MOST_NOISE 8

#endif
