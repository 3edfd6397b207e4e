#include "board.h"

#include "bus.h"
#include "mfc.h"
#include "sensors.h"
#include "truth.h"

#define FLOW_CONTROL 0x0800u      /* bit 11 of the status word */
#define NO_FLOW 0x9000u           /* 0 slm (001, section 3.3.3) */

/* What the two devices know. */
static struct {
    int running, at_temperature, valve_shut;
    uint16_t mixture, concentration;
    uint8_t asked;                /* the liquid sensor's last command */
    uint16_t user;                /* its user register */
} board = { 0, 0, 0, 0, 0, MFC_LIQUID_FLOW, TRUE_USER_REGISTER };

static struct damage damage;
static unsigned long damaged;

void board_damage(struct rate flip) { damage.flip = flip; }
unsigned long board_damaged(void) { return damaged; }

static uint16_t joined(const uint8_t *bytes)
{
    return (uint16_t)(bytes[0] << 8 | bytes[1]);
}

/* A command of two bytes, or of five with a word as its argument. */
static int write_sfc6(const uint8_t *bytes, size_t n)
{
    uint16_t argument = 0;

    if (n != 2 && (n != 5 || mfc_read_words(MFC_START_SFC6, bytes + 2, 3, &argument, 1).refusal != 0))
        return 0;
    switch (joined(bytes)) {
    case MFC_SFC6_START_MIXTURE0: board.running = 1; board.mixture = 0xA000; board.concentration = argument; break;
    case MFC_SFC6_START_MIXTURE1: board.running = 1; board.mixture = 0xB000; board.concentration = argument; break;
    case MFC_SFC6_SET_CONCENTRATION: board.concentration = argument; break;
    case MFC_SFC6_POINT_TO_TEMPERATURE: board.at_temperature = 1; break;
    case MFC_SFC6_POINT_BACK: board.at_temperature = 0; break;
    case MFC_SFC6_SHUT_VALVE: board.valve_shut = 1; break;
    case MFC_SFC6_NORMAL_CONTROL: board.valve_shut = 0; break;
    default: return 0;
    }
    return 1;
}

/* A command of one byte, or of three with a register's value. */
static int write_liquid(const uint8_t *bytes, size_t n)
{
    if (n == 3 && bytes[0] == MFC_LIQUID_WRITE_USER)
        board.user = joined(bytes + 1);
    else if (n == 1)
        board.asked = bytes[0];
    else
        return 0;
    return 1;
}

static uint16_t sfc6_flow_word(void)
{
    return board.valve_shut ? NO_FLOW : (uint16_t)TRUE_SFC6_FLOW;
}

/* Flow, a reserved value and the status, or the temperature; nothing before a measurement is started. */
static size_t sfc6_words(uint16_t *words)
{
    words[0] = board.at_temperature ? (uint16_t)TRUE_SFC6_TEMPERATURE : sfc6_flow_word();
    words[1] = 0;
    words[2] = (uint16_t)(board.mixture | (board.valve_shut ? 0 : FLOW_CONTROL) | board.concentration);
    return !board.running ? 0 : board.at_temperature ? 1 : MOST_WORDS;
}

static size_t liquid_words(uint16_t *words)
{
    switch (board.asked) {
    case MFC_LIQUID_FLOW: words[0] = (uint16_t)TRUE_LIQUID_FLOW; return 1;
    case MFC_LIQUID_TEMPERATURE: words[0] = (uint16_t)TRUE_LIQUID_TEMPERATURE; return 1;
    case MFC_LIQUID_READ_USER: words[0] = board.user; return 1;
    default: return 0;
    }
}

/* Hands bytes over as the bus is today. */
static void pass(const uint8_t *from, uint8_t *to, size_t n)
{
    unsigned struck = 0;

    (void)pass_over(&damage, from, n, to, &struck);
    damaged += struck > 0;
}

int bus_write(uint8_t device, const uint8_t *bytes, size_t n)
{
    return (device == SFC6_DEVICE && write_sfc6(bytes, n)) || (device == LIQUID_DEVICE && write_liquid(bytes, n));
}

int bus_read(uint8_t device, uint8_t *bytes, size_t n)
{
    uint8_t wire[3 * MOST_WORDS];
    uint16_t words[MOST_WORDS];
    size_t count = device == SFC6_DEVICE ? sfc6_words(words) : device == LIQUID_DEVICE ? liquid_words(words) : 0;
    mfc_written written = mfc_write_words(device == SFC6_DEVICE ? MFC_START_SFC6 : MFC_START_LIQUID, words, count, wire, sizeof wire);

    if (written.refusal != 0 || n > written.length)
        return 0;
    pass(wire, bytes, n);
    return 1;
}
