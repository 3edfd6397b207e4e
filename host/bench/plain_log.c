#include "plain_log.h"

#include <string.h>

#define CLOSE 8                  /* the bytes that close a log: count and total */
#define TRAILER 3                /* the bytes behind a body: kind and length */
#define MOST 65000               /* bytes of all records */

static inline uint32_t load32(const uint8_t *at)
{
    return (uint32_t)at[0] << 24 | (uint32_t)at[1] << 16 | (uint32_t)at[2] << 8 | at[3];
}

static inline void store32(uint8_t *at, uint32_t value)
{
    at[0] = (uint8_t)(value >> 24);
    at[1] = (uint8_t)(value >> 16);
    at[2] = (uint8_t)(value >> 8);
    at[3] = (uint8_t)value;
}

static inline int is_kind(uint8_t kind, size_t length)
{
    return kind == 1 || kind == 2 || (kind == 3 && length == 0);
}

/* Few bodies are over 255 bytes. For the others a jump leaves the high byte out: the processor foresees it, and the place of the
   next trailer does not wait for that byte. */
static inline size_t length_of(const uint8_t *trailer)
{
    size_t length = trailer[2];

    if (__builtin_expect(trailer[1] != 0, 0))
        length += (size_t)trailer[1] << 8;
    return length;
}

/* The records that were not gone over yet end at `end`. */
struct walk { const uint8_t *end; size_t count; uint8_t refusal; };

/* Goes over them from the newest on, until there were `most` in all. A pointer to the end is quicker than its place in the file:
   nothing is to be added to it before each load. */
static inline struct walk go_back(const uint8_t *file, struct walk walk, size_t most)
{
    const uint8_t *end = walk.end;
    size_t count = walk.count;

    while (end - file >= TRAILER && count < most) {
        const uint8_t *trailer = end - TRAILER;
        size_t length = length_of(trailer);

        if (length > (size_t)(trailer - file)) {
            walk.refusal = 21;
            return walk;
        }
        if (!is_kind(trailer[0], length)) {
            walk.refusal = 22;
            return walk;
        }
        end = trailer - length;
        count++;
    }
    walk.end = end;
    walk.count = count;
    walk.refusal = end != file && count < most ? 21 : 0;
    return walk;
}

static inline int is_total_right(const uint8_t *file, size_t length)
{
    return length >= CLOSE && length <= MOST + CLOSE && load32(file + length - 4) == length - CLOSE;
}

mfc_words plain_log_check(const uint8_t *file, size_t length)
{
    mfc_words checked = { 20, 0 };
    struct walk walk = { NULL, 0, 0 };

    if (!is_total_right(file, length))
        return checked;
    walk.end = file + length - CLOSE;
    walk = go_back(file, walk, SIZE_MAX);
    checked.refusal = walk.refusal;
    if (walk.refusal != 0)
        return checked;
    checked.refusal = 23;
    if (load32(file + length - CLOSE) != walk.count)
        return checked;
    checked.refusal = 0;
    checked.count = walk.count;
    return checked;
}

mfc_written plain_log_empty(uint8_t *file, size_t room)
{
    mfc_written written = { 1, 0 };

    if (room < CLOSE)
        return written;
    memset(file, 0, CLOSE);
    written.refusal = 0;
    written.length = CLOSE;
    return written;
}

mfc_written plain_log_append(uint8_t *file, size_t room, size_t length, uint8_t kind, const uint8_t *body, size_t n)
{
    mfc_written written = { 1, 0 };
    mfc_words checked;
    uint8_t *at;

    if (length > room)
        return written;
    checked = plain_log_check(file, length);
    written.refusal = checked.refusal;
    if (checked.refusal != 0)
        return written;
    written.refusal = 22;
    if (!is_kind(kind, n))
        return written;
    written.refusal = 12;
    if (n > MOST || length + TRAILER + n > MOST + CLOSE)
        return written;
    written.refusal = 1;
    if (TRAILER + n > room - length)
        return written;
    at = file + length - CLOSE;
    if (n > 0)
        memcpy(at, body, n);
    at += n;
    at[0] = kind;
    at[1] = (uint8_t)(n >> 8);
    at[2] = (uint8_t)n;
    store32(at + 3, (uint32_t)checked.count + 1);
    store32(at + 7, (uint32_t)(length + TRAILER + n - CLOSE));
    written.refusal = 0;
    written.length = length + TRAILER + n;
    return written;
}

/* No row is laid before the whole log is tested. The test stops at the first record to be listed, so that the rows are laid from
   there on and what is newer is gone over once. */
mfc_words plain_log_list(const uint8_t *file, size_t length, size_t skip, uint16_t *rows, size_t room)
{
    mfc_words listed = { 20, 0 };
    struct walk walk = { NULL, 0, 0 };
    const uint8_t *end;
    size_t count, most = room / MFC_LOG_ROW;

    if (!is_total_right(file, length))
        return listed;
    walk.end = file + length - CLOSE;
    walk = go_back(file, walk, skip);
    end = walk.end;
    if (walk.refusal == 0)
        walk = go_back(file, walk, SIZE_MAX);
    listed.refusal = walk.refusal;
    if (walk.refusal != 0)
        return listed;
    listed.refusal = 23;
    if (load32(file + length - CLOSE) != walk.count)
        return listed;
    listed.refusal = end != file && most == 0;
    for (count = 0; end != file && count < most; count++) {
        const uint8_t *trailer = end - TRAILER;
        size_t n = length_of(trailer);

        end = trailer - n;
        rows[0] = trailer[0];
        rows[1] = (uint16_t)(end - file);
        rows[2] = (uint16_t)n;
        rows += MFC_LOG_ROW;
    }
    listed.count = count;
    return listed;
}

void plain_log_ends(const uint8_t *file, size_t length, uint16_t *ends, size_t count)
{
    const uint8_t *end = file + length - CLOSE;

    while (count > 0) {
        ends[--count] = (uint16_t)(end - file);
        end -= TRAILER + length_of(end - TRAILER);
    }
}
