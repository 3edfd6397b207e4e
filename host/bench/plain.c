#include "plain.h"

#include <string.h>

#define DELIMITER 0x7E
#define ESCAPE 0x7D
#define STORE 260
#define FARTHEST 65535           /* the last place of a fault that is told */

static inline int special(uint8_t byte)
{
    return (uint8_t)(byte - ESCAPE) <= 1 || (byte & 0xFD) == 0x11;
}

/* ---- the receiver ---- */

/* BROKEN and BARE are the numbers of the refusals found. */
enum { OUTSIDE = 0, PLAIN = 1, ESCAPED = 2, BROKEN = 3, BARE = 4 };

void plain_fresh(struct plain_receiver *receiver, uint8_t kind)
{
    memset(receiver, 0, sizeof *receiver);
    receiver->kind = kind;
}

/* What is wrong with a body: 0 for nothing, else its refusal. */
static uint8_t judge(const struct plain_receiver *receiver, unsigned length, uint8_t sum)
{
    unsigned head = receiver->kind == 0 ? 3 : 4;

    if (length > head + 256)
        return 5;
    if (length < head + 1)
        return 6;
    if (receiver->store[head - 1] != length - head - 1)
        return 7;
    /* All bytes and their checksum make 255. */
    return sum == 0xFF ? 0 : 8;
}

/* Where the fault of a stretch is. Neither count goes on behind a fault, so the bytes before it are those of the body and, for each
   escape among them, one more. */
static uint16_t place_in(const struct plain_receiver *receiver, unsigned length)
{
    unsigned place = length + receiver->escapes;

    return (uint16_t)(place < FARTHEST ? place : FARTHEST);
}

struct item { uint8_t refusal; uint16_t place; };

/* What a closed stretch is: without a refusal a frame. The next stretch has no escapes yet. */
static struct item close_stretch(struct plain_receiver *receiver, unsigned mode, unsigned length, uint8_t sum)
{
    struct item item = { 0, 0 };

    if (mode == PLAIN) {
        item.refusal = judge(receiver, length, sum);
    } else {
        item.refusal = mode == BARE ? 4 : 3;
        item.place = place_in(receiver, length);
    }
    receiver->escapes = 0;
    return item;
}

/* Passes over noise: the bytes before the first 7E. */
static size_t skip_noise(struct plain_receiver *receiver, const uint8_t *piece, size_t n)
{
    size_t at = 0;

    while (at < n && piece[at] != DELIMITER)
        at++;
    receiver->noise = at < UINT32_MAX - receiver->noise ? receiver->noise + (uint32_t)at : UINT32_MAX;
    return at;
}

/* The stretch that was begun is no more. */
static void drop_stretch(struct plain_receiver *receiver)
{
    receiver->mode = OUTSIDE;
    receiver->length = 0;
    receiver->escapes = 0;
    receiver->sum = 0;
}

/* gcc must put this into both of its callers: else the answer comes back through memory, and a piece of one byte takes twice the time. */
static inline __attribute__((always_inline)) struct plain_fed feed(struct plain_receiver *receiver, uint8_t silence,
                                                                   const uint8_t *piece, size_t n)
{
    struct plain_fed fed = { 0, 0, 0, 0 };
    unsigned mode = receiver->mode;
    unsigned length = receiver->length;
    uint8_t sum = receiver->sum;
    size_t at = 0;

    if (silence) {
        if (mode > PLAIN || length > 0) {
            drop_stretch(receiver);
            fed.refusal = 9;
            return fed;
        }
        mode = OUTSIDE;
    }
    if (mode == OUTSIDE)
        at = skip_noise(receiver, piece, n);
    while (at < n) {
        uint8_t byte = piece[at++];

        if (byte == DELIMITER) {
            unsigned closed = mode;

            mode = PLAIN;
            if (closed > PLAIN || (closed == PLAIN && length > 0)) {
                struct item item = close_stretch(receiver, closed, length, sum);

                fed.refusal = item.refusal;
                fed.place = item.place;
                fed.frame_length = item.refusal == 0 ? length : 0;
                length = 0;
                sum = 0;
                break;
            }
            continue;
        }
        if (mode == PLAIN) {
            if (byte == ESCAPE) {
                mode = ESCAPED;
                continue;
            }
            if ((byte & 0xFD) == 0x11) {
                mode = BARE;
                continue;
            }
        } else if (mode == ESCAPED) {
            if (byte != 0x5E && byte != 0x5D && byte != 0x31 && byte != 0x33) {
                mode = BROKEN;
                continue;
            }
            byte ^= 0x20;
            mode = PLAIN;
            receiver->escapes++;
        } else {
            continue;
        }
        if (length < STORE)
            receiver->store[length++] = byte;
        else
            length += length < FARTHEST;
        sum = (uint8_t)(sum + byte);
    }
    receiver->mode = (uint8_t)mode;
    receiver->length = (uint16_t)length;
    receiver->sum = sum;
    fed.taken = at;
    return fed;
}

struct plain_fed plain_feed(struct plain_receiver *receiver, uint8_t silence, const uint8_t *piece, size_t n, uint8_t *frame,
                            size_t room)
{
    struct plain_fed fed = { 0, 0, 0, 0 };

    if (receiver->kind > 1 || receiver->mode > BARE || (receiver->mode == OUTSIDE && receiver->length > 0)) {
        fed.refusal = 2;
        return fed;
    }
    if (room < STORE) {
        fed.refusal = 1;
        return fed;
    }
    fed = feed(receiver, silence, piece, n);
    if (fed.frame_length > 0)
        memcpy(frame, receiver->store, fed.frame_length);
    return fed;
}

struct plain_fed plain_feed_own(struct plain_receiver *receiver, uint8_t silence, const uint8_t *piece, size_t n)
{
    return feed(receiver, silence, piece, n);
}

/* ---- requests ---- */

/* What a request carries after its subcommand. */
enum { NOTHING, FLOAT, NUMBER, ADDRESS, BAUD };

/* What a reply carries: as above, or two bytes, one of 0 and 1, or a text. */
enum { SHORT = 5, BOOLEAN = 6, TEXT = 7 };

#define NO_SUB 0x100

struct form {
    uint8_t command;
    uint8_t carries;
    uint16_t sub;
    uint8_t reply;               /* the number of the reply that suits it */
    uint8_t answers;             /* what that carries */
};

static const struct form forms[21] = {
    { 0x00, NOTHING, 0x01, 1, FLOAT }, { 0x00, FLOAT, 0x01, 0, NOTHING },
    { 0x08, NOTHING, 0x01, 2, FLOAT },
    { 0x22, NOTHING, 0x00, 3, FLOAT }, { 0x22, FLOAT, 0x00, 0, NOTHING },
    { 0x22, NOTHING, 0x03, 4, FLOAT }, { 0x22, FLOAT, 0x03, 0, NOTHING },
    { 0x30, NOTHING, 0x00, 5, SHORT }, { 0x30, NOTHING, 0x02, 6, SHORT }, { 0x30, NOTHING, 0x10, 7, FLOAT },
    { 0x40, NOTHING, 0x00, 8, NUMBER }, { 0x40, NUMBER, 0x10, 9, BOOLEAN },
    { 0x44, NOTHING, 0x14, 10, FLOAT },
    { 0x45, NOTHING, NO_SUB, 11, NUMBER }, { 0x45, NUMBER, NO_SUB, 0, NOTHING },
    { 0x46, NUMBER, NO_SUB, 0, NOTHING },
    { 0x90, NOTHING, NO_SUB, 12, ADDRESS }, { 0x90, ADDRESS, NO_SUB, 0, NOTHING },
    { 0x91, NOTHING, NO_SUB, 13, BAUD }, { 0x91, BAUD, NO_SUB, 0, NOTHING },
    { 0xD0, NOTHING, 0x00, 14, TEXT },
};

static const uint8_t sizes[8] = { 0, 4, 4, 1, 4, 2, 1, 0 };

static int is_baud(uint32_t value)
{
    return value == 9600 || value == 19200 || value == 38400 || value == 57600 || value == 115200;
}

static int is_finite(uint32_t bits)
{
    return (bits & 0x7F800000u) != 0x7F800000u;
}

/* A request's own refusals: 11, 12, 13, 10. Most requests carry nothing that can be wrong, so these come first. */
static inline uint8_t request_refusal(uint8_t address, uint8_t request, uint32_t value)
{
    unsigned carries;

    if (request > 20)
        return 11;
    carries = forms[request].carries;
    if (carries == NOTHING || carries == NUMBER)
        return 0;
    if (carries == FLOAT)
        return is_finite(value) ? 0 : 13;
    if (carries == BAUD)
        return is_baud(value) ? 0 : 12;
    return value > 254 ? 12 : address == 255 ? 10 : 0;
}

/* A number of 0, 1, 2 or 4 bytes, most significant first. */
static inline uint32_t number_at(const uint8_t *data, size_t size)
{
    if (size == 4)
        return (uint32_t)data[0] << 24 | (uint32_t)data[1] << 16 | (uint32_t)data[2] << 8 | data[3];
    if (size == 2)
        return (uint32_t)data[0] << 8 | data[1];
    return size == 1 ? data[0] : 0;
}

/* Whether bytes and checksum make 255. */
static inline int is_sum_right(const uint8_t *body, size_t n)
{
    unsigned sum = 0;

    for (size_t i = 0; i < n; i++)
        sum += body[i];
    return (sum & 0xFF) == 0xFF;
}

/* The first request of a command in the table, where those of one command follow on each other; 21 for none. */
static inline uint8_t first_of(uint8_t command)
{
    switch (command) {
    case 0x00: return 0;
    case 0x08: return 2;
    case 0x22: return 3;
    case 0x30: return 7;
    case 0x40: return 10;
    case 0x44: return 12;
    case 0x45: return 13;
    case 0x46: return 15;
    case 0x90: return 16;
    case 0x91: return 18;
    case 0xD0: return 20;
    default: return 21;
    }
}

struct plain_request plain_read_request(const uint8_t *body, size_t n)
{
    struct plain_request read = { 0, 0, 0, 0 };

    if (n > 259 || n < 4 || body[2] != n - 4) {
        read.refusal = n > 259 ? 5 : n < 4 ? 6 : 7;
        return read;
    }
    read.refusal = 8;
    if (!is_sum_right(body, n))
        return read;
    read.refusal = 11;
    for (uint8_t request = first_of(body[1]); request < 21 && forms[request].command == body[1]; request++) {
        const struct form *form = &forms[request];
        size_t sub = form->sub != NO_SUB, size = sizes[form->carries];
        uint32_t value;

        if (sub > 0 && (n == 4 || body[3] != form->sub))
            continue;
        read.refusal = 12;
        if (n - 4 != sub + size)
            continue;
        value = number_at(body + 3 + sub, size);
        read.refusal = request_refusal(body[0], request, value);
        if (read.refusal == 0) {
            read.address = body[0];
            read.request = request;
            read.value = value;
        }
        return read;
    }
    return read;
}

/* A byte behind the frame so far, stuffed. */
static inline uint8_t *put(uint8_t *out, uint8_t byte)
{
    if (special(byte)) {
        *out++ = ESCAPE;
        byte ^= 0x20;
    }
    *out++ = byte;
    return out;
}

/* A number's bytes, most significant first, and their sum. */
static inline uint8_t *put_number(uint8_t *out, uint32_t value, unsigned size, uint8_t *sum)
{
    while (size-- > 0) {
        uint8_t byte = (uint8_t)(value >> (8 * size));

        *sum = (uint8_t)(*sum + byte);
        out = put(out, byte);
    }
    return out;
}

/* 17 bytes hold every request: with so much room the frame goes to its place at once. */
#define LONGEST_REQUEST 17

static size_t lay_request(const struct form *form, uint8_t address, uint32_t value, uint8_t *out)
{
    uint8_t *end = out;
    unsigned size = sizes[form->carries];
    uint8_t length = (uint8_t)(size + (form->sub != NO_SUB));
    uint8_t sum = (uint8_t)(address + form->command + length);

    *end++ = DELIMITER;
    end = put(end, address);
    end = put(end, form->command);
    end = put(end, length);
    if (form->sub != NO_SUB)
        end = put_number(end, form->sub, 1, &sum);
    end = put_number(end, value, size, &sum);
    end = put(end, (uint8_t)~sum);
    *end++ = DELIMITER;
    return (size_t)(end - out);
}

struct plain_written plain_write_request(uint8_t address, uint8_t request, uint32_t value, uint8_t *out, size_t room)
{
    struct plain_written written = { 0, 0 };
    uint8_t spare[LONGEST_REQUEST];
    size_t length;

    written.refusal = request_refusal(address, request, value);
    if (written.refusal != 0)
        return written;
    length = lay_request(&forms[request], address, value, room >= LONGEST_REQUEST ? out : spare);
    if (room < LONGEST_REQUEST) {
        if (length > room) {
            written.refusal = 1;
            return written;
        }
        memcpy(out, spare, length);
    }
    written.length = length;
    return written;
}

/* ---- replies ---- */

/* The refusal of a value in a reply: 12 or 13. The usual ones first again. */
static inline uint8_t value_refusal(unsigned answers, uint32_t value)
{
    if (answers == NUMBER || (answers == FLOAT && is_finite(value)))
        return 0;
    switch (answers) {
    case FLOAT: return value == 0xFFFFFFFFu || value == 0x7F800000u || value == 0xFF800000u ? 0 : 13;
    case SHORT: return value > 65535 ? 12 : 0;
    case ADDRESS: return value > 254 ? 12 : 0;
    case BAUD: return is_baud(value) ? 0 : 12;
    default: return 0;
    }
}

/* A text is looked at in blocks: of a fixed number of bytes and without a jump among them gcc takes all of them at once. */
#define BLOCK 16

static inline uint8_t sum_of(const uint8_t *bytes, size_t n)
{
    uint8_t sum = 0;

    for (; n >= BLOCK; n -= BLOCK, bytes += BLOCK) {
        uint8_t part = 0;

        for (unsigned i = 0; i < BLOCK; i++)
            part = (uint8_t)(part + bytes[i]);
        sum = (uint8_t)(sum + part);
    }
    for (size_t i = 0; i < n; i++)
        sum = (uint8_t)(sum + bytes[i]);
    return sum;
}

static inline int is_plain(const uint8_t *block)
{
    int found = 0;

    for (unsigned i = 0; i < BLOCK; i++)
        found |= special(block[i]);
    return !found;
}

static const uint8_t stuffed[256] = { [DELIMITER] = 1, [ESCAPE] = 1, [0x11] = 1, [0x13] = 1 };

/* A text behind the frame so far, stuffed. Most hold no special byte: a run of plain bytes is copied in blocks, and the block in which it
   ends goes byte by byte, where the table beats special(). To look for the end of each run and copy it by its length gains little where
   runs are long and loses much where they are short. */
static inline uint8_t *put_text(uint8_t *out, const uint8_t *text, size_t n)
{
    size_t at = 0;

    while (n - at >= BLOCK) {
        if (is_plain(text + at)) {
            memcpy(out, text + at, BLOCK);
            out += BLOCK;
            at += BLOCK;
            continue;
        }
        for (size_t stop = at + BLOCK; at < stop; at++) {
            if (stuffed[text[at]]) {
                *out++ = ESCAPE;
                *out++ = text[at] ^ 0x20;
            } else {
                *out++ = text[at];
            }
        }
    }
    for (; at < n; at++)
        out = put(out, text[at]);
    return out;
}

static size_t count_stuffed(const uint8_t *bytes, size_t n)
{
    size_t count = n;

    for (size_t i = 0; i < n; i++)
        count += (size_t)special(bytes[i]);
    return count;
}

struct plain_written plain_write_reply(uint8_t address, uint8_t request, uint32_t value, uint8_t reply, uint32_t reply_value,
                                       const uint8_t *text, size_t n, uint8_t bit7, uint8_t *out, size_t room)
{
    struct plain_written written = { 0, 0 };
    uint8_t head[8], state = bit7 != 0 ? 0x80 : 0, sum = 0, *end = out;
    unsigned answers, size;
    size_t data;

    written.refusal = request_refusal(address, request, value);
    if (written.refusal != 0)
        return written;
    if (address == 255 || (reply != 15 && reply != forms[request].reply)) {
        written.refusal = 14;
        return written;
    }
    answers = reply == 15 ? NOTHING : forms[request].answers;
    if (reply == 15 ? reply_value < 1 || reply_value > 127
                    : answers == TEXT && (n > 254 || (n > 0 && memchr(text, 0, n) != NULL)))
        written.refusal = 12;
    else
        written.refusal = value_refusal(answers, reply_value);
    if (written.refusal != 0)
        return written;
    if (reply == 15)
        state = (uint8_t)(state | reply_value);
    if (answers == BOOLEAN)
        reply_value = reply_value != 0;
    if (answers != TEXT)
        n = 0;
    size = answers == TEXT ? 0 : sizes[answers];
    data = answers == TEXT ? n + 1 : size;

    head[0] = address;
    head[1] = forms[request].command;
    head[2] = state;
    head[3] = (uint8_t)data;
    for (unsigned i = 0; i < size; i++)
        head[4 + i] = (uint8_t)(reply_value >> (8 * (size - 1 - i)));
    for (unsigned i = 0; i < 4 + size; i++)
        sum = (uint8_t)(sum + head[i]);
    sum = (uint8_t)(sum + sum_of(text, n));

    /* Count only where the frame might not fit. */
    if (room < 2 * (data + 5) + 2
        && 3 + count_stuffed(head, 4 + size) + count_stuffed(text, n) + (answers == TEXT) + (size_t)special((uint8_t)~sum) > room) {
        written.refusal = 1;
        return written;
    }
    *end++ = DELIMITER;
    for (unsigned i = 0; i < 4 + size; i++)
        end = put(end, head[i]);
    end = put_text(end, text, n);
    if (answers == TEXT)
        *end++ = 0;
    end = put(end, (uint8_t)~sum);
    *end++ = DELIMITER;
    written.length = (size_t)(end - out);
    return written;
}

struct plain_reply plain_read_reply(uint8_t address, uint8_t request, uint32_t value, const uint8_t *body, size_t n)
{
    struct plain_reply answer = { 0, 0, 0, 0, 0, 0, 0 };
    const struct form *form;
    const uint8_t *data = body + 4;
    uint8_t code;
    size_t length;

    answer.refusal = request_refusal(address, request, value);
    if (answer.refusal != 0)
        return answer;
    if (n > 260 || n < 5 || body[3] != n - 5) {
        answer.refusal = n > 260 ? 5 : n < 5 ? 6 : 7;
        return answer;
    }
    if (!is_sum_right(body, n)) {
        answer.refusal = 8;
        return answer;
    }
    form = &forms[request];
    length = n - 5;
    code = body[2] & 0x7F;
    if (address == 255 || body[0] != address || body[1] != form->command
        || (code != 0 ? length != 0 : form->answers != TEXT && length != sizes[form->answers])) {
        answer.refusal = 14;
        return answer;
    }
    if (code != 0) {
        answer.refusal = 15;
        answer.code = code;
        answer.bit7 = body[2] >> 7;
        return answer;
    }
    if (form->answers == TEXT) {
        const uint8_t *zero = memchr(data, 0, length);

        answer.text_start = 4;
        answer.text_length = zero != NULL ? (size_t)(zero - data) : length;
    } else {
        uint32_t number = number_at(data, length);

        answer.refusal = value_refusal(form->answers, number);
        if (answer.refusal != 0)
            return answer;
        answer.value = form->answers == BOOLEAN ? number != 0 : number;
    }
    answer.reply = form->reply;
    answer.bit7 = body[2] >> 7;
    return answer;
}

/* ---- words ---- */

/* The CRC of each byte from start value 0, polynomial 31 hex. */
static const uint8_t steps[256] = {
    0x00, 0x31, 0x62, 0x53, 0xC4, 0xF5, 0xA6, 0x97, 0xB9, 0x88, 0xDB, 0xEA, 0x7D, 0x4C, 0x1F, 0x2E,
    0x43, 0x72, 0x21, 0x10, 0x87, 0xB6, 0xE5, 0xD4, 0xFA, 0xCB, 0x98, 0xA9, 0x3E, 0x0F, 0x5C, 0x6D,
    0x86, 0xB7, 0xE4, 0xD5, 0x42, 0x73, 0x20, 0x11, 0x3F, 0x0E, 0x5D, 0x6C, 0xFB, 0xCA, 0x99, 0xA8,
    0xC5, 0xF4, 0xA7, 0x96, 0x01, 0x30, 0x63, 0x52, 0x7C, 0x4D, 0x1E, 0x2F, 0xB8, 0x89, 0xDA, 0xEB,
    0x3D, 0x0C, 0x5F, 0x6E, 0xF9, 0xC8, 0x9B, 0xAA, 0x84, 0xB5, 0xE6, 0xD7, 0x40, 0x71, 0x22, 0x13,
    0x7E, 0x4F, 0x1C, 0x2D, 0xBA, 0x8B, 0xD8, 0xE9, 0xC7, 0xF6, 0xA5, 0x94, 0x03, 0x32, 0x61, 0x50,
    0xBB, 0x8A, 0xD9, 0xE8, 0x7F, 0x4E, 0x1D, 0x2C, 0x02, 0x33, 0x60, 0x51, 0xC6, 0xF7, 0xA4, 0x95,
    0xF8, 0xC9, 0x9A, 0xAB, 0x3C, 0x0D, 0x5E, 0x6F, 0x41, 0x70, 0x23, 0x12, 0x85, 0xB4, 0xE7, 0xD6,
    0x7A, 0x4B, 0x18, 0x29, 0xBE, 0x8F, 0xDC, 0xED, 0xC3, 0xF2, 0xA1, 0x90, 0x07, 0x36, 0x65, 0x54,
    0x39, 0x08, 0x5B, 0x6A, 0xFD, 0xCC, 0x9F, 0xAE, 0x80, 0xB1, 0xE2, 0xD3, 0x44, 0x75, 0x26, 0x17,
    0xFC, 0xCD, 0x9E, 0xAF, 0x38, 0x09, 0x5A, 0x6B, 0x45, 0x74, 0x27, 0x16, 0x81, 0xB0, 0xE3, 0xD2,
    0xBF, 0x8E, 0xDD, 0xEC, 0x7B, 0x4A, 0x19, 0x28, 0x06, 0x37, 0x64, 0x55, 0xC2, 0xF3, 0xA0, 0x91,
    0x47, 0x76, 0x25, 0x14, 0x83, 0xB2, 0xE1, 0xD0, 0xFE, 0xCF, 0x9C, 0xAD, 0x3A, 0x0B, 0x58, 0x69,
    0x04, 0x35, 0x66, 0x57, 0xC0, 0xF1, 0xA2, 0x93, 0xBD, 0x8C, 0xDF, 0xEE, 0x79, 0x48, 0x1B, 0x2A,
    0xC1, 0xF0, 0xA3, 0x92, 0x05, 0x34, 0x67, 0x56, 0x78, 0x49, 0x1A, 0x2B, 0xBC, 0x8D, 0xDE, 0xEF,
    0x82, 0xB3, 0xE0, 0xD1, 0x46, 0x77, 0x24, 0x15, 0x3B, 0x0A, 0x59, 0x68, 0xFF, 0xCE, 0x9D, 0xAC,
};

uint8_t plain_crc(uint8_t start, const uint8_t *bytes, size_t n)
{
    uint8_t crc = start;

    for (size_t i = 0; i < n; i++)
        crc = steps[crc ^ bytes[i]];
    return crc;
}

/* A step without the table. The polynomial says that x^8 is x^5 + x^4 + 1, so eight places to the left is the byte, the byte moved
   by 4 and the byte moved by 5. What runs over the top is to be moved likewise, so it is added to the byte first: byte >> 3 and
   byte >> 4 run over, and byte >> 6 is what these two make run over. That beats eight steps of one bit. */
static inline uint8_t step_folded(unsigned byte)
{
    unsigned all = (byte ^ byte >> 3) ^ (byte >> 4 ^ byte >> 6);

    return (uint8_t)(all ^ all << 4 ^ all << 5);
}

uint8_t plain_crc_folded(uint8_t start, const uint8_t *bytes, size_t n)
{
    unsigned crc = start;

    for (size_t i = 0; i < n; i++)
        crc = step_folded(crc ^ bytes[i]);
    return (uint8_t)crc;
}

static inline uint8_t word_crc(uint8_t start, uint8_t high, uint8_t low, int table)
{
    return table ? steps[steps[start ^ high] ^ low] : step_folded(step_folded(start ^ high) ^ low);
}

/* All words are checked before one is stored; the bytes are then at hand and the second pass costs little. */
static inline struct plain_words read_words(const uint8_t *bytes, size_t n, uint16_t *words, size_t room, uint8_t start,
                                            int table)
{
    struct plain_words read = { 0, 0 };
    size_t count = n / 3;

    if (n == 0 || n % 3 != 0) {
        read.refusal = 16;
        return read;
    }
    for (size_t i = 0; i < count; i++) {
        const uint8_t *word = bytes + 3 * i;
        uint8_t crc = word_crc(start, word[0], word[1], table);

        if (crc != word[2]) {
            read.refusal = 17;
            read.count = i;
            return read;
        }
    }
    if (room < count) {
        read.refusal = 1;
        return read;
    }
    for (size_t i = 0; i < count; i++)
        words[i] = (uint16_t)(bytes[3 * i] << 8 | bytes[3 * i + 1]);
    read.count = count;
    return read;
}

struct plain_words plain_read_words(uint8_t start, const uint8_t *bytes, size_t n, uint16_t *words, size_t room)
{
    return read_words(bytes, n, words, room, start, 1);
}

struct plain_words plain_read_words_folded(uint8_t start, const uint8_t *bytes, size_t n, uint16_t *words, size_t room)
{
    return read_words(bytes, n, words, room, start, 0);
}

static inline void put_word(uint8_t *out, unsigned word, uint8_t start, int table)
{
    uint8_t high = (uint8_t)(word >> 8), low = (uint8_t)word;

    out[0] = high;
    out[1] = low;
    out[2] = word_crc(start, high, low, table);
}

/* No array has so many words of 2 bytes that 3 n runs over. */
static inline struct plain_written write_words(const uint16_t *words, size_t n, uint8_t *out, size_t room, uint8_t start, int table)
{
    struct plain_written written = { 0, 0 };

    if (n == 0) {
        written.refusal = 16;
        return written;
    }
    if (room < 3 * n) {
        written.refusal = 1;
        return written;
    }
    for (size_t i = 0; i < n; i++)
        put_word(out + 3 * i, words[i], start, table);
    written.length = 3 * n;
    return written;
}

struct plain_written plain_write_words(uint8_t start, const uint16_t *words, size_t n, uint8_t *out, size_t room)
{
    return write_words(words, n, out, room, start, 1);
}

struct plain_written plain_write_words_folded(uint8_t start, const uint16_t *words, size_t n, uint8_t *out, size_t room)
{
    return write_words(words, n, out, room, start, 0);
}

static inline struct plain_written write_sfc6(uint16_t code, uint32_t concentration, uint8_t *out, size_t room, int table)
{
    struct plain_written written = { 0, 0 };
    size_t length;

    switch (code) {
    case 0xE102: case 0xE000: case 0x3FEF: case 0x3F6E:
        length = 2;
        break;
    case 0xE17D: case 0x3650: case 0x365B:
        length = concentration <= 1000 ? 5 : 0;
        break;
    default:
        length = 0;
    }
    if (length == 0) {
        written.refusal = 12;
        return written;
    }
    if (room < length) {
        written.refusal = 1;
        return written;
    }
    out[0] = (uint8_t)(code >> 8);
    out[1] = (uint8_t)code;
    if (length == 5)
        put_word(out + 2, concentration, 0xFF, table);
    written.length = length;
    return written;
}

struct plain_written plain_write_sfc6(uint16_t code, uint32_t concentration, uint8_t *out, size_t room)
{
    return write_sfc6(code, concentration, out, room, 1);
}

struct plain_written plain_write_sfc6_folded(uint16_t code, uint32_t concentration, uint8_t *out, size_t room)
{
    return write_sfc6(code, concentration, out, room, 0);
}
