/* plain.h: the same jobs in plain C, as one writes them for a small board: in place, one pass where one will do, no copy that
 * the job does not need. The measurements set the library beside these. */
#ifndef PLAIN_H
#define PLAIN_H

#include <stddef.h>
#include <stdint.h>

struct plain_receiver {
    uint8_t kind;                /* 0 requests, 1 replies */
    uint8_t mode;
    uint8_t sum;                 /* of the body so far */
    uint16_t length;             /* of the body so far, stopping at 65,535 */
    uint16_t escapes;            /* among these bytes; any number where the length has stopped */
    uint32_t noise;              /* bytes thrown away, stopping at 4,294,967,295 */
    uint8_t store[260];
};

struct plain_fed { uint8_t refusal; uint16_t place; size_t frame_length, taken; };

struct plain_written { uint8_t refusal; size_t length; };
struct plain_words { uint8_t refusal; size_t count; };
struct plain_request { uint8_t refusal, address, request; uint32_t value; };
struct plain_reply { uint8_t refusal, code, bit7, reply; uint32_t value; size_t text_start, text_length; };

void plain_fresh(struct plain_receiver *receiver, uint8_t kind);

/* Deals with silence, where it came before the piece: 9 where that cut a stretch, and no byte is taken. Else takes bytes up to the end
   of the first item, or all. A frame's body stands at the start of frame. Refuses a record out of its ranges, and a room under 260. */
struct plain_fed plain_feed(struct plain_receiver *receiver, uint8_t silence, const uint8_t *piece, size_t n, uint8_t *frame,
                            size_t room);

/* Does less: it trusts its record, and hands out its own store, where a body stands until the next byte is fed. */
struct plain_fed plain_feed_own(struct plain_receiver *receiver, uint8_t silence, const uint8_t *piece, size_t n);

struct plain_written plain_write_request(uint8_t address, uint8_t request, uint32_t value, uint8_t *out, size_t room);
struct plain_written plain_write_reply(uint8_t address, uint8_t request, uint32_t value, uint8_t reply, uint32_t reply_value,
                                       const uint8_t *text, size_t n, uint8_t bit7, uint8_t *out, size_t room);
struct plain_request plain_read_request(const uint8_t *body, size_t n);
struct plain_reply plain_read_reply(uint8_t address, uint8_t request, uint32_t value, const uint8_t *body, size_t n);

/* CRC-8 with a table of 256 bytes, and folded for boards without room for one. */
uint8_t plain_crc(uint8_t start, const uint8_t *bytes, size_t n);
uint8_t plain_crc_folded(uint8_t start, const uint8_t *bytes, size_t n);
struct plain_words plain_read_words(uint8_t start, const uint8_t *bytes, size_t n, uint16_t *words, size_t room);
struct plain_words plain_read_words_folded(uint8_t start, const uint8_t *bytes, size_t n, uint16_t *words, size_t room);
struct plain_written plain_write_words(uint8_t start, const uint16_t *words, size_t n, uint8_t *out, size_t room);
struct plain_written plain_write_words_folded(uint8_t start, const uint16_t *words, size_t n, uint8_t *out, size_t room);
struct plain_written plain_write_sfc6(uint16_t code, uint32_t concentration, uint8_t *out, size_t room);
struct plain_written plain_write_sfc6_folded(uint16_t code, uint32_t concentration, uint8_t *out, size_t room);

#endif
