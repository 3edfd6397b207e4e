/* answers.h: what became of a question on the serial line or of a reading of a sensor, in words and counted. */
#ifndef ANSWERS_H
#define ANSWERS_H

#include "line.h"
#include "sensors.h"

struct counts {
    unsigned long polls, answered, refused, silent;
};

/* Prints what became of one question, and counts it. */
void print_answer(struct answer answer, struct counts *counts);

/* Prints why a question has no answer: a part of a line. */
void print_failure(struct answer answer);

/* Prints the body of an answer, if it has one; its last byte is the checksum of those before it. */
void print_body(const struct line *line, struct answer answer);

/* Prints what became of one reading of a sensor, and counts it. */
void print_reading(struct reading reading, const char *unit, struct counts *counts);

/* What to print for an I2C device that does not acknowledge. */
extern const char not_acknowledged[];

#endif
