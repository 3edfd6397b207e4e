#include "board_words.h"

#include <stdio.h>

void node_words(uint8_t bus, uint8_t address, char *text, size_t room)
{
    (void)snprintf(text, room, bus == MFC_BUS_I2C ? "I2C %02X" : "serial %u", address);
}

const char *entries_words(size_t count) { return count == 1 ? "entry" : "entries"; }

void print_head(const mfc_entry *entries, size_t count)
{
    size_t due = 0;

    for (size_t i = 0; i < count; i++)
        due += entries[i].left == 0;
    (void)printf("handover board: ");
    if (count == 0)
        (void)printf("empty");
    else
        (void)printf("%lu %s%s", (unsigned long)count, entries_words(count), count == MFC_BOARD_PLACES ? " (full)" : "");
    if (due > 0)
        (void)printf(", %lu DUE", (unsigned long)due);
    else if (count > 0)
        (void)printf(", none due");
}

static void print_entry(mfc_entry entry)
{
    int valve = entry.kind == MFC_ENTRY_VALVE;
    char node[16];

    node_words(entry.bus, entry.address, node, sizeof node);
    (void)printf("  %s: %s, ", node, valve ? "valve forced shut" : "temporary calibration");
    if (entry.left == 0)
        (void)printf("DUE: %s\n", valve ? "return it to normal control, or renew it"
                                        : "set a calibration for good, restart the controller, or renew it");
    else
        (void)printf("%u %s left\n", entry.left, entry.left == 1 ? "poll" : "polls");
}

void print_entries(const mfc_entry *entries, size_t count)
{
    for (size_t i = 0; i < count; i++)
        print_entry(entries[i]);
}
