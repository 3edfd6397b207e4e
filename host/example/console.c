#define _POSIX_C_SOURCE 200809L
#include "console.h"

#include "mfc.h"
#include "sensors.h"

#include <ctype.h>
#include <errno.h>
#include <fcntl.h>
#include <poll.h>
#include <stdio.h>
#include <stdlib.h>
#include <string.h>
#include <strings.h>
#include <unistd.h>

#define MOST_WORDS_OF_A_LINE 4
#define LONGEST_WAIT 1000000
#define MOST_READS 16            /* for one line: input without an end of line does not hold up the polling */

const char console_help[] =
    "Orders of --console, a line each. CONTROLLER is an address on the serial line, 0 to 254 in decimal; ADDRESS is one on the I2C\n"
    "bus in hexadecimal, as the maker's papers have it. POLLS, 1 to 65535, is the number of rounds after which it is due.\n"
    "  load CONTROLLER CALIBRATION POLLS   use a calibration until the controller's restart; on the board\n"
    "  set CONTROLLER CALIBRATION          use a calibration for good; off the board\n"
    "  shut ADDRESS POLLS                  force the valve of an SFC6 shut; on the board\n"
    "  return ADDRESS                      give the valve back to normal control; off the board\n"
    "  restarted serial CONTROLLER         somebody restarted the controller; off the board\n"
    "  restarted i2c ADDRESS               somebody restarted the device; off the board\n"
    "  wait ROUNDS                         take the lines after this one so many rounds later\n"
    "Give load or shut again to renew an entry. A controller stops for load and set, and where they change its calibration its setpoint\n"
    "is 0 afterwards. The board is not kept: the next start of this program has an empty one.\n";

static struct {
    int open;                    /* there may be more input */
    long rounds;                 /* for which the lines still wait */
    unsigned long misunderstood;
    char bytes[256];             /* what was read: from `start` to `end` is not yet taken */
    size_t start, end;
    char line[LONGEST_LINE + 1]; /* the line begun */
    size_t length;               /* its characters, LONGEST_LINE + 1 where it is too long */
} console;

unsigned long console_misunderstood(void) { return console.misunderstood; }

void console_round(void)
{
    if (console.rounds > 0)
        console.rounds--;
}

const char *console_start(void)
{
    /* The line would be opened in the place of a closed input, and its bytes taken for orders. */
    if (fcntl(STDIN_FILENO, F_GETFL) < 0)
        return "standard input is closed: give it a terminal or a file of orders";
    console.open = 1;
    return NULL;
}

/* ---- lines ---- */

/* What is not done is told and counted: `line` may be a part of one. */
static void misunderstood(const char *line, const char *why)
{
    console.misunderstood++;
    (void)printf("order %s: NOT done: %s\n", line, why);
}

/* A tab or the return of a foreign line's end is a space; what cannot be shown becomes a question mark. */
static void keep(char byte)
{
    int space = byte == '\t' || byte == '\r';

    if (console.length < LONGEST_LINE)
        console.line[console.length] = space ? ' ' : byte >= ' ' && byte <= '~' ? byte : '?';
    if (console.length <= LONGEST_LINE)
        console.length++;
}

static void end_input(void)
{
    console.open = 0;
    if (console.length > 0)
        misunderstood(console.line, "the input ended inside this line");
}

/* Fills the empty buffer with what is here now. */
static int hear(void)
{
    struct pollfd one = { STDIN_FILENO, POLLIN, 0 };
    ssize_t n;

    if (!console.open || poll(&one, 1, 0) <= 0)
        return 0;
    n = read(STDIN_FILENO, console.bytes, sizeof console.bytes);
    if (n > 0) {
        console.start = 0;
        console.end = (size_t)n;
    } else if (n == 0 || (errno != EINTR && errno != EAGAIN)) {
        end_input();
    }
    return n > 0;
}

/* Goes on with the line begun. Returns 1 where it is whole. */
static int next_line(void)
{
    for (int reads = 0; reads < MOST_READS; reads++) {
        while (console.start < console.end) {
            char byte = console.bytes[console.start++];

            if (byte == '\n')
                return 1;
            keep(byte);
        }
        if (!hear())
            return 0;
    }
    return 0;
}

int console_wait(int ms)
{
    struct pollfd one = { STDIN_FILENO, POLLIN, 0 };

    /* Input that is not to be read yet would end the wait at once. */
    return poll(&one, console.open && console.rounds == 0 ? 1 : 0, ms) > 0;
}

/* ---- orders ---- */

/* A number in digits alone, within its range. */
static int read_number(const char *text, int base, unsigned long low, unsigned long high, unsigned long *value)
{
    char *end;

    if (!isxdigit((unsigned char)text[0]))
        return 0;
    errno = 0;
    *value = strtoul(text, &end, base);
    return errno == 0 && *end == '\0' && *value >= low && *value <= high;
}

static int read_node(const char *text, uint8_t bus, struct order *order)
{
    unsigned long value;

    if (!read_number(text, bus == MFC_BUS_I2C ? 16 : 10, 0, bus == MFC_BUS_I2C ? 0x7F : 254, &value))
        return 0;
    order->bus = bus;
    order->address = (uint8_t)value;
    return 1;
}

static int read_sfc6(const char *text, struct order *order)
{
    return read_node(text, MFC_BUS_I2C, order) && is_sfc6(order->address);
}

static int read_calibration(const char *text, struct order *order)
{
    unsigned long value;

    if (!read_number(text, 10, 0, 0xFFFFFFFFu, &value))
        return 0;
    order->calibration = (uint32_t)value;
    return 1;
}

/* A lease out of its range must not reach the wire: the board would refuse it when the switch is already made. */
static int read_lease(const char *text, struct order *order)
{
    unsigned long value;

    if (!read_number(text, 10, 1, 65535, &value))
        return 0;
    order->lease = (uint32_t)value;
    return 1;
}

static int read_load(char **word, struct order *order)
{
    return read_node(word[1], MFC_BUS_SERIAL, order) && read_calibration(word[2], order) && read_lease(word[3], order);
}

static int read_set(char **word, struct order *order)
{
    return read_node(word[1], MFC_BUS_SERIAL, order) && read_calibration(word[2], order);
}

static int read_shut(char **word, struct order *order)
{
    return read_sfc6(word[1], order) && read_lease(word[2], order);
}

static int read_return(char **word, struct order *order)
{
    return read_sfc6(word[1], order);
}

static int read_restarted(char **word, struct order *order)
{
    return (strcasecmp(word[1], "serial") == 0 && read_node(word[2], MFC_BUS_SERIAL, order))
        || (strcasecmp(word[1], "i2c") == 0 && read_node(word[2], MFC_BUS_I2C, order));
}

/* No order to a device: it concerns the lines after it. */
static int read_wait(char **word, struct order *order)
{
    unsigned long value;

    if (!read_number(word[1], 10, 1, LONGEST_WAIT, &value))
        return 0;
    console.rounds = (long)value;
    (void)printf("order %s: the next lines are taken %lu %s later\n", order->line, value, value == 1 ? "round" : "rounds");
    return 1;
}

#define CONTROLLER "controller 0 to 254"
#define CALIBRATION "calibration 0 to 4294967295"
#define SFC6_ADDRESS "address 20 to 24, 41 or 42 in hexadecimal"
#define POLLS "polls 1 to 65535"

static const struct form {
    const char *name;
    enum verb verb;
    size_t words;
    int (*read)(char **word, struct order *order);
    const char *advice;
} forms[] = {
    { "load", LOAD, 4, read_load,
      "write load CONTROLLER CALIBRATION POLLS, such as load 7 3 120 (" CONTROLLER ", " CALIBRATION ", " POLLS ")" },
    { "set", SET, 3, read_set, "write set CONTROLLER CALIBRATION, such as set 7 0 (" CONTROLLER ", " CALIBRATION ")" },
    { "shut", SHUT, 3, read_shut, "write shut ADDRESS POLLS, such as shut 24 60 (" SFC6_ADDRESS ", " POLLS ")" },
    { "return", RETURN, 2, read_return, "write return ADDRESS, such as return 24 (" SFC6_ADDRESS ")" },
    { "restarted", RESTARTED, 3, read_restarted,
      "write restarted serial 7 (0 to 254) or restarted i2c 24 (0 to 7F in hexadecimal)" },
    { "wait", NOTHING, 2, read_wait, "write wait ROUNDS, such as wait 3 (rounds 1 to 1000000)" },
};

static const struct form *find_form(const char *name)
{
    for (size_t i = 0; i < sizeof forms / sizeof forms[0]; i++)
        if (strcasecmp(name, forms[i].name) == 0)
            return &forms[i];
    return NULL;
}

/* The words of a line, at most one more than the longest order has. */
static size_t split(char *text, char **word)
{
    size_t n = 0;
    char *next = strtok(text, " ");

    for (; next != NULL && n <= MOST_WORDS_OF_A_LINE; next = strtok(NULL, " "))
        word[n++] = next;
    return n;
}

/* Reads what the line in `order` says. */
static void read_order(struct order *order)
{
    char text[LONGEST_LINE + 1];
    char *word[MOST_WORDS_OF_A_LINE + 1];
    const struct form *form;
    size_t n;

    memcpy(text, order->line, sizeof text);
    n = split(text, word);
    if (n == 0)
        return;
    form = find_form(word[0]);
    if (form == NULL)
        misunderstood(order->line, "write load, set, shut, return, restarted or wait (see supervise --help)");
    else if (n != form->words || !form->read(word, order))
        misunderstood(order->line, form->advice);
    else
        order->verb = form->verb;
}

int console_next(struct order *order)
{
    size_t length;

    if (console.rounds > 0 || !next_line())
        return 0;
    length = console.length;
    memset(order, 0, sizeof *order);
    memcpy(order->line, console.line, sizeof order->line);
    memset(console.line, 0, sizeof console.line);
    console.length = 0;
    if (length > LONGEST_LINE)
        misunderstood(order->line, "this line is too long: write a short one, such as load 7 3 120");
    else
        read_order(order);
    return 1;
}
