#include "bench_board.h"

#include "bench.h"
#include "mfc.h"
#include "plain_board.h"
#include "traffic.h"

#include <string.h>

#define PLACES MFC_BOARD_PLACES
#define LEASE 60000              /* the shortest */

typedef mfc_entry board[PLACES];

/* Entries of any nodes in any order. A board half full has free places anywhere; `absent` is an entry that it does not hold. */
static board full[ROW], half[ROW];
static mfc_entry absent[ROW];

/* ---- boards ---- */

static uint16_t any_lease(void)
{
    return (uint16_t)(LEASE + any(65536 - LEASE));
}

static mfc_entry any_entry(void)
{
    mfc_entry e = { 0, 0, 0, 0 };

    e.kind = (uint8_t)(1 + any(2));
    e.bus = (uint8_t)any(2);
    e.address = (uint8_t)any(e.bus == MFC_BUS_SERIAL ? 255 : 128);
    e.left = any_lease();
    return e;
}

static int is_held(const mfc_entry *table, size_t n, mfc_entry e)
{
    for (size_t i = 0; i < n; i++)
        if (table[i].kind == e.kind && table[i].bus == e.bus && table[i].address == e.address)
            return 1;
    return 0;
}

static mfc_entry other_entry(const mfc_entry *table, size_t n)
{
    mfc_entry e = any_entry();

    while (is_held(table, n, e))
        e = any_entry();
    return e;
}

static void lay_full(mfc_entry *table)
{
    for (size_t i = 0; i < PLACES; i++)
        table[i] = other_entry(table, i);
}

static void lay_half(mfc_entry *table)
{
    size_t held = PLACES;

    lay_full(table);
    while (held > PLACES / 2) {
        mfc_entry *e = &table[any(PLACES)];

        held -= e->kind != 0;
        memset(e, 0, sizeof *e);
    }
}

/* ---- the jobs ---- */

/* The loops are laid into each of the functions for library and plain C, so that the calls are direct ones. */
typedef uint8_t open_call(mfc_entry *, size_t, uint8_t, uint8_t, uint8_t, uint32_t);
typedef uint8_t close_call(mfc_entry *, size_t, uint8_t, uint8_t, uint8_t);
typedef uint8_t poll_call(mfc_entry *, size_t);
typedef mfc_listed list_call(const mfc_entry *, size_t, mfc_entry *, size_t);

static void renew_all(void)
{
    for (size_t i = 0; i < ROW; i++)
        for (size_t place = 0; place < PLACES; place++)
            full[i][place].left = any_lease();
}

/* Every lease is renewed before the first of them runs out, so that each poll takes one from all 32. */
static inline void poll_row(poll_call *poll)
{
    static unsigned polls;
    size_t sum = 0;

    if (++polls % LEASE == 0)
        renew_all();
    for (size_t i = 0; i < ROW; i++)
        sum += poll(full[i], PLACES);
    sink = sum;
}

static void poll_library(void) { poll_row(mfc_board_poll); }
static void poll_plain(void) { poll_row(plain_board_poll); }

static inline void renew_row(open_call *open)
{
    size_t sum = 0;

    for (size_t i = 0; i < ROW; i++) {
        mfc_entry last = full[i][PLACES - 1];

        sum += open(full[i], PLACES, last.bus, last.address, last.kind, 65535);
    }
    sink = sum;
}

static void renew_library(void) { renew_row(mfc_board_open); }
static void renew_plain(void) { renew_row(plain_board_open); }

/* Each board is as before when its two calls are done. */
static inline void open_row(open_call *open, close_call *close)
{
    size_t sum = 0;

    for (size_t i = 0; i < ROW; i++) {
        mfc_entry e = absent[i];

        sum += open(half[i], PLACES, e.bus, e.address, e.kind, e.left);
        sum += close(half[i], PLACES, e.bus, e.address, e.kind);
    }
    sink = sum;
}

static void open_library(void) { open_row(mfc_board_open, mfc_board_close); }
static void open_plain(void) { open_row(plain_board_open, plain_board_close); }

static inline void list_row(list_call *list)
{
    static board entries;
    size_t sum = 0;

    for (size_t i = 0; i < ROW; i++)
        sum += list(full[i], PLACES, entries, PLACES).count + entries[PLACES - 1].address;
    sink = sum;
}

static void list_library(void) { list_row(mfc_board_list); }
static void list_plain(void) { list_row(plain_board_list); }

void measure_boards(void)
{
    measure("poll of a full board", "call", ROW, poll_library, poll_plain);
    measure("open: renew the last of a full board", "call", ROW, renew_library, renew_plain);
    measure("open and close on a board half full", "call", 2 * ROW, open_library, open_plain);
    measure("list a full board", "call", ROW, list_library, list_plain);
}

/* ---- the same answers ---- */

#define LENT LENT_PLACES

static mfc_entry one[LENT], other[LENT];

/* The byte between address and polls left is nobody's. */
static int same_entry(mfc_entry a, mfc_entry b)
{
    return a.kind == b.kind && a.bus == b.bus && a.address == b.address && a.left == b.left;
}

int same_tables(const mfc_entry *a, const mfc_entry *b)
{
    for (size_t i = 0; i < LENT; i++)
        if (!same_entry(a[i], b[i]))
            return 0;
    return 1;
}

static void compare_calls(uint8_t a, uint8_t b, const char *what)
{
    compare(a == b && same_tables(one, other), what);
}

static void compare_list(size_t places)
{
    static mfc_entry listed[LENT], plain_listed[LENT];
    size_t room = any(4) != 0 ? PLACES : any(LENT + 1);
    mfc_listed a, b;

    memset(listed, 0xAA, sizeof listed);
    memset(plain_listed, 0xAA, sizeof plain_listed);
    a = mfc_board_list(one, places, listed, room);
    b = plain_board_list(other, places, plain_listed, room);
    compare(a.refusal == b.refusal && a.count == b.count && same_tables(listed, plain_listed) && same_tables(one, other),
            "list");
}

/* Mostly one of the first two, which are in range, at times one of the others. */
static uint8_t mostly(const uint8_t *values, uint32_t n)
{
    return values[any(16) != 0 ? any(2) : any(n)];
}

/* Few addresses, so that orders meet entries that are there, and more than a board holds. */
static const uint8_t addresses[] = { 0, 1, 2, 3, 17, 64, 100, 126, 127, 128, 200, 253, 254, 255 };
static const uint8_t buses[] = { 0, 1, 2, 3, 128, 255 };
static const uint8_t kinds[] = { 1, 2, 0, 3, 128, 255 };
static const uint32_t leases[] = { 1, 2, 3, 40, 65535, 0, 65536, 65537, 0x80000001, 0xFFFFFFFF };
static const size_t sizes[] = { 0, 1, 31, 33 };

/* One order to both. The more `openings` of 16, the fuller the board. */
static void compare_order(unsigned openings)
{
    uint8_t address = addresses[any(sizeof addresses)];
    uint8_t bus = mostly(buses, sizeof buses), kind = mostly(kinds, sizeof kinds);
    uint32_t lease = leases[any(any(16) != 0 ? 5 : 10)];
    size_t places = any(64) != 0 ? PLACES : sizes[any(4)];

    if (any(16) < openings) {
        compare_calls(mfc_board_open(one, places, bus, address, kind, lease),
                      plain_board_open(other, places, bus, address, kind, lease), "open");
        return;
    }
    switch (any(4)) {
    case 0:
        compare_calls(mfc_board_close(one, places, bus, address, kind),
                      plain_board_close(other, places, bus, address, kind), "close");
        break;
    case 1:
        compare_calls(mfc_board_restart(one, places, bus, address), plain_board_restart(other, places, bus, address), "restart");
        break;
    case 2:
        compare_calls(mfc_board_poll(one, places), plain_board_poll(other, places), "poll");
        break;
    default:
        compare_list(places);
    }
}

/* One wrong number in a table, or one entry a second time. A number may happen to be in range. */
static void spoil(mfc_entry *table)
{
    mfc_entry *e = &table[any(PLACES)];

    switch (any(5)) {
    case 0: e->kind = (uint8_t)any(any(2) == 0 ? 4 : 256); break;
    case 1: e->bus = (uint8_t)any(any(2) == 0 ? 3 : 256); break;
    case 2: e->address = addresses[any(sizeof addresses)]; break;
    case 3: e->left = (uint16_t)(any(2) == 0 ? 1u << any(16) : any(65536)); break;
    default: *e = table[any(PLACES)];
    }
}

/* A spoilt table goes to every function. */
static void compare_spoilt(const mfc_entry *table)
{
    for (unsigned i = 0; i < 8; i++) {
        memcpy(one, table, sizeof one);
        spoil(one);
        memcpy(other, one, sizeof other);
        for (unsigned order = 0; order < 8; order++)
            compare_order(4);
    }
}

static void compare_boards_from(const mfc_entry *table)
{
    mfc_entry kept[LENT];

    memcpy(one, table, PLACES * sizeof one[0]);
    memset(&one[PLACES], 0xAA, sizeof one[0]);
    memcpy(other, one, sizeof other);
    for (unsigned i = 0; i < 1000; i++) {
        compare_order(i / 100 % 2 == 0 ? 12 : 5);
        if (i % 100 == 99) {
            memcpy(kept, one, sizeof kept);
            compare_spoilt(kept);
            memcpy(one, kept, sizeof one);
            memcpy(other, kept, sizeof other);
        }
    }
}

void compare_boards(void)
{
    static board empty;

    for (size_t i = 0; i < ROW; i++) {
        compare_boards_from(empty);
        compare_boards_from(full[i]);
        compare_boards_from(half[i]);
    }
}

/* ---- the stack ---- */

/* A full board, one half full, one without an entry, one with an entry twice. */
#define USED 4

static board used[USED];

void use_board_open(void)
{
    for (size_t b = 0; b < USED; b++)
        for (size_t places = PLACES - 1; places <= PLACES; places++)
            for (uint8_t kind = 0; kind <= 2; kind++)
                sink = mfc_board_open(used[b], places, MFC_BUS_I2C, 77, kind, 5);
}

void use_board_close(void)
{
    for (size_t b = 0; b < USED; b++)
        for (size_t places = PLACES - 1; places <= PLACES; places++)
            for (uint8_t kind = 0; kind <= 2; kind++)
                sink = mfc_board_close(used[b], places, used[b][5].bus, used[b][5].address, kind);
}

void use_board_restart(void)
{
    for (size_t b = 0; b < USED; b++)
        for (size_t places = PLACES - 1; places <= PLACES; places++)
            for (uint8_t bus = 0; bus <= 2; bus++)
                sink = mfc_board_restart(used[b], places, bus, used[b][7].address);
}

void use_board_poll(void)
{
    for (size_t b = 0; b < USED; b++)
        for (size_t places = PLACES - 1; places <= PLACES; places++)
            sink = mfc_board_poll(used[b], places);
}

void use_board_list(void)
{
    static board entries;

    for (size_t b = 0; b < USED; b++)
        for (size_t places = PLACES - 1; places <= PLACES; places++)
            for (size_t room = 0; room <= PLACES; room += PLACES / 2)
                sink = mfc_board_list(used[b], places, entries, room).count;
}

void use_board_reply(void)
{
    for (size_t b = 0; b < USED; b++)
        for (size_t places = PLACES - 1; places <= PLACES; places++)
            for (uint8_t request = 0; request <= 21; request++)
                for (uint8_t refusal = 0; refusal <= 1; refusal++)
                    sink = mfc_board_reply(used[b], places, 77, request, refusal, 5);
}

void use_board_acknowledged(void)
{
    static const uint16_t codes[] = {
        MFC_SFC6_SHUT_VALVE, MFC_SFC6_NORMAL_CONTROL, MFC_SFC6_POINT_TO_TEMPERATURE, MFC_SFC6_POINT_BACK,
        MFC_SFC6_SET_CONCENTRATION, MFC_SFC6_START_MIXTURE0, MFC_SFC6_START_MIXTURE1, 0x1234,
    };

    for (size_t b = 0; b < USED; b++)
        for (size_t places = PLACES - 1; places <= PLACES; places++)
            for (size_t c = 0; c < sizeof codes / sizeof codes[0]; c++)
                sink = mfc_board_acknowledged(used[b], places, 77, codes[c], 5);
}

void lay_boards(void)
{
    for (size_t i = 0; i < ROW; i++) {
        lay_full(full[i]);
        lay_half(half[i]);
        absent[i] = other_entry(half[i], PLACES);
    }
    memcpy(used[0], full[0], sizeof used[0]);
    memcpy(used[1], half[0], sizeof used[1]);
    memcpy(used[3], full[1], sizeof used[3]);
    used[3][30] = used[3][3];
}
