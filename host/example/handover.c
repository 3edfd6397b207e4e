#include "handover.h"

#include "board_words.h"
#include "words.h"

#include <stdio.h>

static mfc_entry table[MFC_BOARD_PLACES]; /* all zeros: every place is free */
static unsigned long missed;              /* what was done at a node and not taken by the board */
static unsigned long faults;              /* times that it could not be polled or shown */

int handover_is_whole(void) { return missed == 0 && faults == 0; }

/* What a refused call leaves wrong on the board, or NULL where the call concerns no entry. */
static const char *reply_missed(uint8_t request)
{
    switch (request) {
    case MFC_REQUEST_VOLATILE_CALIBRATION: return "temporary calibration is NOT on the board";
    case MFC_REQUEST_SET_CALIBRATION: return "calibration set for good, but NOT taken off the board";
    default: return NULL;
    }
}

static const char *command_missed(uint16_t code)
{
    switch (code) {
    case MFC_SFC6_SHUT_VALVE: return "valve forced shut is NOT on the board";
    case MFC_SFC6_NORMAL_CONTROL: return "valve back in normal control, but NOT taken off the board";
    default: return NULL;
    }
}

/* Tells the user what the board did not take. A damaged table refuses every call: where the call concerns no entry, that is told when
   the board is polled and shown, once a round and not at each answer. */
static void tell_missed(uint8_t bus, uint8_t address, const char *what, uint8_t refusal)
{
    int damaged = refusal == MFC_REFUSAL_NO_ROOM || refusal == MFC_REFUSAL_BAD_RECORD;
    char node[16];

    if (refusal == 0 || (what == NULL && damaged))
        return;
    missed++;
    node_words(bus, address, node, sizeof node);
    (void)printf("*** %s: %s (refused %u, %s): %s ***\n", node, what != NULL ? what : "an answer is NOT taken by the board", refusal,
                 refusal_words(refusal),
                 refusal == MFC_REFUSAL_BOARD_FULL ? refusal_advice(refusal)
                                                   : "a fault of this program: write it down by hand and report it");
}

/* `length` is 0 where no reply was read. `refusal` may be 0 then too, as with silence, noise and a line that is gone: the board must
   not take that for an accepted order. */
struct answer handover_ask(struct line *line, uint8_t address, uint8_t request, uint32_t value, uint32_t lease)
{
    struct answer answer = line_ask(line, address, request, value);

    if (answer.length > 0)
        tell_missed(MFC_BUS_SERIAL, address, reply_missed(request),
                    mfc_board_reply(table, MFC_BOARD_PLACES, address, request, answer.reply.refusal, lease));
    return answer;
}

void handover_acknowledged(uint8_t device, uint16_t code, uint32_t lease)
{
    tell_missed(MFC_BUS_I2C, device, command_missed(code),
                mfc_board_acknowledged(table, MFC_BOARD_PLACES, device, code, lease));
}

int handover_restarted(uint8_t bus, uint8_t address)
{
    uint8_t refusal = mfc_board_restart(table, MFC_BOARD_PLACES, bus, address);

    tell_missed(bus, address, "restarted, but NOT taken off the board", refusal);
    return refusal == 0;
}

static void tell_fault(const char *what, uint8_t refusal)
{
    faults++;
    (void)printf("*** the handover board cannot be %s (refused %u, %s): %s ***\n", what, refusal, refusal_words(refusal),
                 refusal_advice(refusal));
}

void handover_poll(void)
{
    uint8_t refusal = mfc_board_poll(table, MFC_BOARD_PLACES);

    if (refusal != 0)
        tell_fault("polled", refusal);
}

void handover_print(void)
{
    mfc_entry entries[MFC_BOARD_PLACES];
    mfc_listed listed = mfc_board_list(table, MFC_BOARD_PLACES, entries, MFC_BOARD_PLACES);

    if (listed.refusal != 0) {
        tell_fault("shown", listed.refusal);
        return;
    }
    print_head(entries, listed.count);
    if (missed > 0)
        (void)printf("; NOT noted since the start: %lu, see what was written down by hand", missed);
    (void)printf("\n");
    print_entries(entries, listed.count);
}

void handover_end(void)
{
    mfc_entry entries[MFC_BOARD_PLACES];
    size_t count = mfc_board_list(table, MFC_BOARD_PLACES, entries, MFC_BOARD_PLACES).count;

    if (count > 0)
        (void)printf("*** the handover board ends with this program: write its %lu %s down by hand ***\n",
                     (unsigned long)count, entries_words(count));
}
