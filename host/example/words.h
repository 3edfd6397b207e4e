/* words.h: the numbers of mfc.h in words, for people. */
#ifndef WORDS_H
#define WORDS_H

#include <stddef.h>
#include <stdint.h>

/* What a refusal says, and what to do about it. Neither holds a semicolon: the output's fields are divided by one. */
const char *refusal_words(uint8_t refusal);
const char *refusal_advice(uint8_t refusal);

/* The same for the code that a controller reports beside MFC_REFUSAL_DEVICE_ERROR, from the maker's appendix. */
const char *code_words(uint8_t code);
const char *code_advice(uint8_t code);

/* A float reading by its bits, in words: a number that reads back as the same float, or one of the three codings. */
void reading_words(uint32_t bits, char *text, size_t room);

/* A number of thousandths, in words: 1250 is 1.250, -7 is -0.007. */
void thousandths_words(int32_t thousandths, char *text, size_t room);

/* A receiver's count of noise, in words, and what to do. */
void noise_words(uint32_t count, char *text, size_t room);

/* A float's bits, and the float of some bits. */
uint32_t bits_of(float value);
float float_of(uint32_t bits);

#endif
