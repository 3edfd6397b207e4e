/* supervise: polls a rack of mass flow controllers, and the sensors of an I2C bus beside it, and prints one line for each; takes
 * orders from a console, and shows the handover board after each round. It says how much noise the serial line brought, and keeps what
 * crosses that line in a log.
 *
 * It uses no heap: all it holds is static, and stdout gets a buffer of its own. */
#define _POSIX_C_SOURCE 200809L
#include "answers.h"
#include "board.h"
#include "handover.h"
#include "line.h"
#include "log.h"
#include "orders.h"
#include "sensors.h"
#include "words.h"

#include <errno.h>
#include <signal.h>
#include <stdio.h>
#include <stdlib.h>
#include <string.h>

#define RACK 24
#define CONCENTRATION 250        /* per mille of gas 0 in gas 1, for the SFC6 of the board */
#define FIELD 1                  /* the calibration field of its liquid sensor */
#define LINES_AT_ONCE 40         /* of the console: more of them wait for the next round, so that the rack is polled */

/* The exit status says what to look at. A log that cannot be begun is NO_LINE, before anything is polled; one that is not all on disk in
   the end is SOME_REFUSED, and one that was saved late is no fault. */
enum { ALL_WELL = 0, SOME_REFUSED = 1, USAGE = 2, NO_LINE = 3, PROGRAM_FAULT = 4 };

static const char help[] =
    "usage: supervise [--rounds N] [--every S] [--timeout MS] [--board RATE] [--console] [--log FILE] [--show] DEVICE\n"
    "Polls the controllers 0 to 23 on a serial line (115,200 baud, 8N1) for measured value and calibration. Shows the handover board\n"
    "after each round: what this program forced shut or loaded until a restart, and the polls (rounds) until it is due. Says after a\n"
    "round that brought noise, and at the end, how many bytes of it came since the start; stray bytes, which come while no question is\n"
    "open, are counted apart.\n"
    "  --rounds N    poll the rack N times (1 to 1000000, default 1)\n"
    "  --every S     begin a round every S seconds (0 to 3600, default 0, one round after the other)\n"
    "  --timeout MS  take the line as silent after MS without a byte (1 to 10000, default 200, the maker's limit)\n"
    "  --board RATE  poll the two sensors of a simulated I2C board too; a bit of a byte read flips at this RATE, a chance such as\n"
    "                0.01, 1/100 for exactly every 100th, or 0 for none\n"
    "  --console     take orders from standard input, before each round and between rounds\n"
    "  --log FILE    keep what crosses the serial line in FILE, then FILE.1, FILE.2 and so on; a log that is there is gone on with. It is\n"
    "                saved after each round, and a power cut loses what came since. FILE.new is written on the way\n"
    "  --show        print the body of each answer, with its checksum\n"
    "  --help        print this\n"
    "Exit status: 0 all answered, 1 some refused, silent, not done, not on the board or not in the log, 2 wrong usage, 3 no line, bus or\n"
    "log to begin with, or line lost, 4 a fault of this program.\n";

struct options {
    long rounds;
    long every;                  /* seconds */
    long timeout_ms;
    int board, console, show;
    struct rate flip;            /* of the board's bus */
    const char *log;             /* NULL for none */
    const char *device;
};

struct results {
    struct counts line, bus;     /* of the polls */
    unsigned long undone;        /* orders that were not done */
    unsigned long damaged;       /* the simulated bus's reads before the first poll */
};

static volatile sig_atomic_t stop;

static void on_signal(int number)
{
    (void)number;
    stop = 1;
}

/* A whole decimal number in its range, or 0 if `text` is none. */
static int number(const char *text, long low, long high, long *value)
{
    char *end;

    if (text == NULL || *text == '\0')
        return 0;
    errno = 0;
    *value = strtol(text, &end, 10);
    return errno == 0 && *end == '\0' && *value >= low && *value <= high;
}

static int wrong_usage(const char *what, const char *word)
{
    (void)fprintf(stderr, "supervise: %s: %s (see supervise --help)\n", word, what);
    return 0;
}

static int read_options(int argc, char **argv, struct options *options)
{
    for (int i = 1; i < argc; i++) {
        if (strcmp(argv[i], "--rounds") == 0) {
            if (!number(argv[++i], 1, 1000000, &options->rounds))
                return wrong_usage("takes a number from 1 to 1000000", "--rounds");
        } else if (strcmp(argv[i], "--every") == 0) {
            if (!number(argv[++i], 0, 3600, &options->every))
                return wrong_usage("takes seconds from 0 to 3600", "--every");
        } else if (strcmp(argv[i], "--timeout") == 0) {
            if (!number(argv[++i], 1, 10000, &options->timeout_ms))
                return wrong_usage("takes milliseconds from 1 to 10000", "--timeout");
        } else if (strcmp(argv[i], "--board") == 0) {
            options->board = 1;
            if (!read_rate(argv[++i], &options->flip))
                return wrong_usage("takes a rate such as 0.01 or 1/100", "--board");
        } else if (strcmp(argv[i], "--console") == 0) {
            options->console = 1;
        } else if (strcmp(argv[i], "--log") == 0) {
            options->log = argv[++i];
            if (options->log == NULL || options->log[0] == '\0' || options->log[0] == '-')
                return wrong_usage("takes the name of a file", "--log");
        } else if (strcmp(argv[i], "--show") == 0) {
            options->show = 1;
        } else if (argv[i][0] == '-') {
            return wrong_usage("no such option", argv[i]);
        } else if (options->device != NULL) {
            return wrong_usage("only one device can be given", argv[i]);
        } else {
            options->device = argv[i];
        }
    }
    return options->device != NULL || wrong_usage("give the serial device", "DEVICE");
}

static struct answer ask(struct plant *plant, uint8_t address, uint8_t request)
{
    struct answer answer = handover_ask(&plant->line, address, request, 0, NO_LEASE);

    if (plant->show)
        print_body(&plant->line, answer);
    return answer;
}

/* One line for one controller. Returns 0 if the line is over. */
static int poll_controller(struct plant *plant, uint8_t address, struct counts *counts)
{
    struct answer measured = ask(plant, address, MFC_REQUEST_MEASURED_VALUE);
    struct answer calibration;

    if (line_is_over(measured))
        return 0;
    calibration = ask(plant, address, MFC_REQUEST_GET_CALIBRATION);
    if (line_is_over(calibration))
        return 0;
    (void)printf("controller %2u: measured ", address);
    print_answer(measured, counts);
    (void)printf("; calibration ");
    print_answer(calibration, counts);
    (void)printf("\n");
    return 1;
}

/* One line for one sensor. */
static void print_sensor(const char *name, struct reading flow, const char *unit, struct reading temperature,
                         struct counts *counts)
{
    (void)printf("sensor %s: flow ", name);
    print_reading(flow, unit, counts);
    (void)printf("; temperature ");
    print_reading(temperature, "C", counts);
    (void)printf("\n");
}

static void poll_sensors(struct counts *counts)
{
    struct reading flow = sfc6_flow();

    print_sensor("SFC6", flow, "l/min", sfc6_temperature(), counts);
    flow = liquid_flow();
    print_sensor("liquid", flow, "ml/min", liquid_temperature(), counts);
}

/* Carries out the orders that are there. Returns 0 if the line is over. */
static int take_orders(struct plant *plant, unsigned long *undone)
{
    struct order order;

    for (int lines = 0; lines < LINES_AT_ONCE && !stop && console_next(&order); lines++) {
        enum outcome outcome = carry_out(plant, &order);

        if (outcome == ORDER_LINE_OVER)
            return 0;
        *undone += outcome == ORDER_NOT_DONE;
    }
    return 1;
}

/* Takes orders until the next round's time has come, at least once. Returns 0 if the line is over. */
static int await_round(struct plant *plant, int64_t next, unsigned long *undone)
{
    for (;;) {
        int64_t left;

        if (!take_orders(plant, undone))
            return 0;
        log_save();
        left = next - now_ms();
        if (left <= 0 || stop)
            return 1;
        (void)console_wait((int)left);
    }
}

/* Returns 0 if the line is over. */
static int poll_rack(struct plant *plant, struct counts *counts)
{
    for (uint8_t address = 0; address < RACK && !stop; address++)
        if (!poll_controller(plant, address, counts))
            return 0;
    return 1;
}

/* The receiver is not given stray bytes, and they may be noise too: where there were some, `no noise` says that they are not counted. */
static void print_noise(const struct line *line)
{
    uint32_t noise = line_noise(line);
    char text[128];

    noise_words(noise, text, sizeof text);
    (void)printf("%s%s\n", text, noise == 0 && line->stray > 0 ? ", stray bytes not counted" : "");
}

/* Prints the noise where it grew over `before`. Returns how much it is. */
static uint32_t print_growth(const struct line *line, uint32_t before)
{
    uint32_t noise = line_noise(line);

    if (noise > before)
        print_noise(line);
    return noise;
}

/* A whole round: the board is polled, and the log says where. Returns 0, with the board not polled, if the line is over. */
static int end_round(struct plant *plant, struct counts *counts)
{
    if (plant->bus)
        poll_sensors(counts);
    if (!line_mark(&plant->line))
        return 0;
    handover_poll();
    console_round();
    return 1;
}

/* A round that is broken off takes no poll from the board, and shows it all the same. Returns 0 if the line is over. */
static int poll_rounds(struct plant *plant, const struct options *options, struct results *results)
{
    int64_t next = now_ms();
    uint32_t noise = 0;
    int there = 1;

    for (long round = 0; round < options->rounds && there && !stop; round++) {
        there = await_round(plant, next, &results->undone);
        next = now_ms() + options->every * 1000;
        there = there && poll_rack(plant, &results->line);
        if (there && !stop)
            there = end_round(plant, &results->bus);
        noise = print_growth(&plant->line, noise);
        handover_print();
        log_save();
    }
    return there;
}

/* A signal ends the program between two controllers; poll and read then see EINTR. */
static void stop_on_signals(void)
{
    struct sigaction action;

    memset(&action, 0, sizeof action);
    action.sa_handler = on_signal;
    (void)sigemptyset(&action.sa_mask);
    (void)sigaction(SIGINT, &action, NULL);
    (void)sigaction(SIGTERM, &action, NULL);
    /* A log that is over the largest file allowed is not saved, and the polling goes on. */
    action.sa_handler = SIG_IGN;
    (void)sigaction(SIGXFSZ, &action, NULL);
}

/* Opens what the options name. Returns 0, and tells the user, where that fails. */
static int open_plant(struct plant *plant, const struct options *options)
{
    const char *what = "--console", *fault = options->console ? console_start() : NULL;
    int open = 0;

    if (fault == NULL) {
        what = options->device;
        fault = line_open(&plant->line, options->device, (int)options->timeout_ms);
        open = fault == NULL;
    }
    if (fault == NULL && options->log != NULL) {
        what = "--log";
        fault = log_open(options->log);
    }
    if (fault == NULL && options->board) {
        what = "the I2C bus";
        board_damage(options->flip);
        fault = sensors_start(CONCENTRATION, FIELD);
    }
    if (fault != NULL && open)
        line_close(&plant->line);
    plant->bus = options->board;
    plant->show = options->show;
    if (fault != NULL)
        (void)fprintf(stderr, "supervise: %s: %s\n", what, fault);
    return fault == NULL;
}

static void print_results(const struct plant *plant, const struct results *results)
{
    const struct counts *line = &results->line, *bus = &results->bus;

    if (plant->bus)
        (void)printf("readings %lu, answered %lu, refused %lu, no answer %lu, damaged %lu\n",
                     bus->polls, bus->answered, bus->refused, bus->silent, board_damaged() - results->damaged);
    (void)printf("polls %lu, answered %lu, refused %lu, no answer %lu, stray bytes %lu\n",
                 line->polls, line->answered, line->refused, line->silent, plant->line.stray);
}

/* Why the polling ended before all rounds were done. Returns the exit status. */
static int tell_end(const struct line *line, const char *device)
{
    if (line->fault == 0) {
        (void)fprintf(stderr, "supervise: %s: the line is gone: check the adapter's plug, then start again\n", device);
        return NO_LINE;
    }
    (void)fprintf(stderr, "supervise: %s: refused %u (%s): %s, then start again\n", device, line->fault, refusal_words(line->fault),
                  refusal_advice(line->fault));
    return PROGRAM_FAULT;
}

static int all_well(const struct results *results)
{
    return results->line.answered == results->line.polls && results->bus.answered == results->bus.polls
        && results->undone == 0 && console_misunderstood() == 0 && handover_is_whole() && log_is_whole();
}

int main(int argc, char **argv)
{
    static struct plant plant;
    static char out[4096];
    struct options options = { 1, 0, 200, 0, 0, 0, { 0, 0, 0 }, NULL, NULL };
    struct results results = { { 0, 0, 0, 0 }, { 0, 0, 0, 0 }, 0, 0 };
    int there, status;

    (void)setvbuf(stdout, out, _IOLBF, sizeof out);
    if (argc == 2 && strcmp(argv[1], "--help") == 0) {
        (void)fputs(help, stdout);
        (void)fputs(console_help, stdout);
        return ALL_WELL;
    }
    if (!read_options(argc, argv, &options))
        return USAGE;
    stop_on_signals();
    if (!open_plant(&plant, &options))
        return NO_LINE;
    results.damaged = board_damaged();
    there = poll_rounds(&plant, &options, &results);
    handover_end();
    log_end();
    /* Of a line that is gone too: it may say why. After a fault of this program its count is not to be trusted. */
    if (plant.line.fault == 0)
        print_noise(&plant.line);
    if (there)
        print_results(&plant, &results);
    (void)fflush(stdout);
    if (there)
        status = all_well(&results) ? ALL_WELL : SOME_REFUSED;
    else
        status = tell_end(&plant.line, options.device);
    line_close(&plant.line);
    return status;
}
