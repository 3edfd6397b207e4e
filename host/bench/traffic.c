#include "traffic.h"

#include "plain.h"

#include <string.h>

#define RACK 24
#define MEASURED 2
#define CALIBRATION 13
#define PRODUCT_TYPE 20

static uint32_t state = 1;

/* A small generator: measurements need other bytes each time, not good randomness. */
static uint32_t next_random(void)
{
    state = state * 1664525u + 1013904223u;
    return state >> 8;
}

/* A flow near 10 with a noisy last part, as a float's bits. */
static uint32_t some_flow(void)
{
    return 0x41200000u + next_random() % 0x20000u;
}

void polling_round(struct poll *polls)
{
    for (unsigned i = 0; i < POLLS; i++) {
        struct poll *p = &polls[i];
        uint8_t sum = 0;

        p->address = (uint8_t)(i / 2);
        p->request = i % 2 == 0 ? MEASURED : CALIBRATION;
        p->value = i % 2 == 0 ? some_flow() : i / 2 % 8;
        p->body[0] = p->address;
        p->body[1] = i % 2 == 0 ? 0x08 : 0x45;
        p->body[2] = 0;
        p->body[3] = 4;
        for (unsigned k = 0; k < 4; k++)
            p->body[4 + k] = (uint8_t)(p->value >> (24 - 8 * k));
        for (unsigned k = 0; k < 8; k++)
            sum = (uint8_t)(sum + p->body[k]);
        p->body[8] = (uint8_t)~sum;
        p->length = 9;
    }
}

size_t polling_traffic(uint8_t *out, size_t room)
{
    size_t at = 0;

    for (unsigned i = 0;; i = (i + 1) % POLLS) {
        uint8_t address = (uint8_t)(i / 2);
        struct plain_written written = i % 2 == 0
            ? plain_write_reply(address, MEASURED, 0, 2, some_flow(), NULL, 0, 0, out + at, room - at)
            : plain_write_reply(address, CALIBRATION, 0, 11, address % 8, NULL, 0, 0, out + at, room - at);

        if (written.refusal != 0)
            return at;
        at += written.length;
    }
}

size_t escape_traffic(uint8_t *out, size_t room)
{
    static const uint8_t specials[4] = { 0x11, 0x13, 0x7D, 0x7E };
    uint8_t text[254];
    size_t at = 0;

    for (size_t i = 0; i < sizeof text; i++)
        text[i] = specials[next_random() % 4];
    for (unsigned i = 0;; i++) {
        uint8_t address = specials[i % 4];
        struct plain_written written;
        uint32_t value = 0;

        for (unsigned k = 0; k < 4; k++)
            value = value << 8 | specials[next_random() % 4];
        if (i % 16 == 15)
            written = plain_write_reply(address, PRODUCT_TYPE, 0, 14, 0, text, sizeof text, 0, out + at, room - at);
        else if (i % 2 == 0)
            written = plain_write_reply(address, MEASURED, 0, 2, value, NULL, 0, 0, out + at, room - at);
        else
            written = plain_write_reply(address, CALIBRATION, 0, 11, value, NULL, 0, 0, out + at, room - at);
        if (written.refusal != 0)
            return at;
        at += written.length;
    }
}

size_t damaged_traffic(uint8_t *out, size_t room)
{
    size_t n = polling_traffic(out, room);

    for (size_t i = 0; i < n; i += 1 + next_random() % 16)
        switch (next_random() % 6) {
        case 0: out[i] = 0x7E; break;
        case 1: out[i] = 0x7D; break;
        case 2: out[i] = 0x11; break;
        case 3: out[i] = (uint8_t)next_random(); break;
        case 4: out[i] = (uint8_t)(out[i] ^ 1u << next_random() % 8); break;
        default: break;
        }
    /* Long stretches: one is too long, and one has a bare byte late in it. */
    if (n > 4096) {
        memset(out + 1024, 0x55, 700);
        memset(out + 2048, 0x55, 700);
        out[2700] = 0x13;
    }
    return n;
}

/* A second fault behind the first, or the stretch's end, changes nothing. */
size_t broken_stretch(uint8_t *out, size_t place, size_t every, unsigned fault)
{
    static const uint8_t faults[FAULTS][2] = {
        { 0x11, 0x55 }, { 0x13, 0x11 }, { 0x11, 0x7D }, { 0x7D, 0x41 }, { 0x7D, 0x11 }, { 0x7D, 0x7E },
    };
    static const uint8_t seconds[4] = { 0x5E, 0x5D, 0x31, 0x33 };
    size_t at = 0;

    out[at++] = 0x7E;
    for (size_t turn = 1; at <= place; turn++)
        if (every > 0 && turn % every == 0 && at < place) {
            out[at++] = 0x7D;
            out[at++] = seconds[turn % 4];
        } else {
            out[at++] = (uint8_t)('A' + turn % 26);
        }
    memcpy(out + at, faults[fault], 2);
    out[at + 2] = 0x7E;
    return at + 3;
}

size_t broken_traffic(uint8_t *out, size_t room)
{
    size_t at = 0;

    while (room - at > 1000) {
        size_t place = next_random() % 900, every = next_random() % 4;
        unsigned fault = next_random() % FAULTS;

        if (next_random() % 8 != 0)
            place %= 30;
        at += broken_stretch(out + at, place, every, fault);
    }
    return at;
}

uint32_t any(uint32_t n)
{
    static uint64_t any_state = 1;

    any_state ^= any_state >> 12;
    any_state ^= any_state << 25;
    any_state ^= any_state >> 27;
    return (uint32_t)(any_state * 0x2545F4914F6CDD1Du >> 32) % n;
}

void random_bytes(uint8_t *out, size_t n)
{
    for (size_t i = 0; i < n; i++)
        out[i] = (uint8_t)next_random();
}

void noise_bytes(uint8_t *out, size_t n)
{
    random_bytes(out, n);
    for (size_t i = 0; i < n; i++)
        if (out[i] == 0x7E)
            out[i] = 0x7D;
}

void good_words(uint8_t start, uint8_t *out, size_t words)
{
    for (size_t i = 0; i < words; i++) {
        random_bytes(out + 3 * i, 2);
        out[3 * i + 2] = plain_crc(start, out + 3 * i, 2);
    }
}
