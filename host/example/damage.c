#include "damage.h"

#include <ctype.h>
#include <errno.h>
#include <stdlib.h>
#include <string.h>

int read_rate(const char *text, struct rate *rate)
{
    char *end;

    if (text == NULL || *text == '\0' || *text == '-')
        return 0;
    rate->seen = 0;
    rate->every = 0;
    rate->chance = 0;
    errno = 0;
    if (strncmp(text, "1/", 2) == 0) {
        rate->every = strtoul(text + 2, &end, 10);
        return errno == 0 && text[2] >= '0' && text[2] <= '9' && *end == '\0' && rate->every > 0;
    }
    rate->chance = strtod(text, &end);
    return errno == 0 && *end == '\0' && rate->chance >= 0 && rate->chance <= 1;
}

int read_put(const char *text, struct damage *damage)
{
    unsigned long place, byte;
    char *end;

    if (text == NULL || !isdigit((unsigned char)text[0]))
        return 0;
    errno = 0;
    place = strtoul(text, &end, 10);
    if (errno != 0 || place > 1000 || *end != '=' || !isxdigit((unsigned char)end[1]))
        return 0;
    byte = strtoul(end + 1, &end, 16);
    damage->put_at = place + 1;
    damage->put_byte = (uint8_t)byte;
    return errno == 0 && *end == '\0' && byte <= 0xFF;
}

/* Splitmix64: one seed gives one run. */
static uint64_t next_random(struct damage *damage)
{
    uint64_t z = damage->state += 0x9E3779B97F4A7C15u;

    z = (z ^ (z >> 30)) * 0xBF58476D1CE4E5B9u;
    z = (z ^ (z >> 27)) * 0x94D049BB133111EBu;
    return z ^ (z >> 31);
}

uint32_t random_under(struct damage *damage, uint32_t limit)
{
    return (uint32_t)((next_random(damage) >> 32) * limit >> 32);
}

int strikes(struct damage *damage, struct rate *rate)
{
    if (rate->every > 0)
        return ++rate->seen % rate->every == 0;
    return rate->chance > 0 && (double)(next_random(damage) >> 11) / 9007199254740992.0 < rate->chance;
}

size_t pass_over(struct damage *damage, const uint8_t *bytes, size_t n, uint8_t *out, unsigned *struck)
{
    size_t end = 0;

    for (size_t i = 0; i < n; i++) {
        uint8_t byte = bytes[i];

        if (strikes(damage, &damage->drop)) {
            ++*struck;
            continue;
        }
        if (strikes(damage, &damage->flip)) {
            ++*struck;
            byte = (uint8_t)(byte ^ (1u << random_under(damage, 8)));
        }
        out[end++] = byte;
    }
    return end;
}

void put_over(const struct damage *damage, uint8_t *bytes, size_t n, unsigned *struck)
{
    size_t at = damage->put_at;

    if (at == 0 || at >= n || bytes[at] == damage->put_byte)
        return;
    bytes[at] = damage->put_byte;
    ++*struck;
}

/* Bytes that mean something inside a frame, and others, but no 7E: before an answer each of them is noise. */
static size_t add_before(const struct damage *damage, uint8_t *bytes, size_t n)
{
    static const uint8_t known[MOST_NOISE] = { 0x00, 0x7D, 0x5E, 0x11, 0x13, 0xFF, 0x7F, 0x7D };

    memmove(bytes + damage->before, bytes, n);
    memcpy(bytes, known, damage->before);
    return n + damage->before;
}

static size_t add_random(struct damage *damage, uint8_t *bytes, size_t n)
{
    size_t count = 1 + random_under(damage, MOST_NOISE);
    size_t place = random_under(damage, (uint32_t)n + 1);

    memmove(bytes + place + count, bytes + place, n - place);
    for (size_t i = 0; i < count; i++)
        bytes[place + i] = (uint8_t)random_under(damage, 256);
    return n + count;
}

size_t add_noise(struct damage *damage, uint8_t *bytes, size_t n)
{
    return damage->before > 0 ? add_before(damage, bytes, n) : add_random(damage, bytes, n);
}
