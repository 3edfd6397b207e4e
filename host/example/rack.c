/* rack: 24 controllers, or as many as an option says, on a pseudo-terminal, for trying a supervisory program without the gas.
 *
 * They read requests and write answers by the library's own functions, and keep what they are told: setpoint, gain, init step,
 * calibration, address and baud rate. A line of bad quality can be had by the options. */
#define _XOPEN_SOURCE 700
#define _DEFAULT_SOURCE /* the rates over 38,400 */
#include "damage.h"
#include "mfc.h"
#include "truth.h"
#include "words.h"

#include <errno.h>
#include <fcntl.h>
#include <poll.h>
#include <signal.h>
#include <stdio.h>
#include <stdlib.h>
#include <string.h>
#include <termios.h>
#include <time.h>
#include <unistd.h>

#define BROADCAST 255
#define SILENCE_MS 200           /* the maker's interbyte timeout */
#define WAITING 64               /* answers held back at one time */
#define AHEAD 1200               /* bytes held for the next piece: two answers, or an echo */

/* The maker's error codes that a rack without sensors needs. */
enum { DATA_SIZE = 1, UNKNOWN_COMMAND = 2, PARAMETER = 4, INVALID_CALIBRATION = 51 };

static const char help[] =
    "usage: rack [options]\n"
    "Prints the name of a pseudo-terminal and answers there as controllers, 24 at addresses 0 to 23, until SIGTERM or SIGINT;\n"
    "then prints what it did. RATE is a chance such as 0.01, or 1/100 for exactly every 100th.\n"
    "  --controllers N answer as N controllers, addresses from 0 on (1 to 255, default 24)\n"
    "  --drop RATE     lose a byte of an answer\n"
    "  --flip RATE     flip a bit of a byte of an answer\n"
    "  --noise RATE    put random bytes before, inside or behind an answer\n"
    "  --before N      let --noise put N bytes, none of them 7E, before an answer and not random ones (1 to 8)\n"
    "  --cut RATE      fall silent inside an answer\n"
    "  --pause RATE    fall silent inside an answer and send the rest late\n"
    "  --late RATE     send an answer late\n"
    "  --held RATE     send an answer only before the next one, in one piece with it\n"
    "  --wrong RATE    answer from the next controller's address\n"
    "  --put AT=BYTE   make byte AT of every answer, counted from 0 behind its opening 7E, BYTE in hexadecimal: 8=11\n"
    "  --fill N        put N bytes 00 behind the opening 7E of every answer, before what --put changed (1 to 100000)\n"
    "  --requests      let --drop and --flip strike the requests too\n"
    "  --echo          send the master its own request back, in one piece with the answer, as a two-wire line may\n"
    "  --delay MS      what late means (1 to 10000, default 300)\n"
    "  --seed N        other random numbers (default 1)\n"
    "  --seconds N     stop after N seconds (1 to 86400, default none)\n"
    "  --wire FILE     write down what crosses the line, a line for each piece: 1 and the bytes heard, or 2 and the bytes sent\n"
    "  --truth         print what a supervisory program should print for each controller and sensor, and stop\n"
    "  --help          print this\n";

struct controller {
    uint8_t first;               /* the address it started with, from which its readings are derived */
    uint8_t address;
    uint32_t setpoint, gain, init_step;
    uint32_t calibration;
    uint32_t baud;
};

/* What a controller says to a request: a reply of mfc.h and its value. */
struct said {
    uint8_t reply;
    uint32_t value;
};

/* Bytes to be sent at their time. */
struct waiting {
    int64_t due;                 /* 0 for a free place */
    size_t n;
    uint8_t bytes[MFC_REPLY_ROOM + MOST_NOISE];
};

struct rack {
    struct controller controllers[MOST_CONTROLLERS];
    long count;                  /* of them that are there */
    struct damage damage;
    int damage_requests, echo;
    long delay_ms, seconds;
    long fill;                   /* bytes 00 put into each answer */
    const char *wire_name;       /* of the file that tells what crosses the line, or NULL */
    FILE *wire;
    int master, slave;           /* the slave is held open, so that the line lives on between two masters */
    uint8_t record[MFC_RECORD_SIZE], frame[MFC_FRAME_ROOM];
    int faulty;                  /* record or room was refused, by a fault of this program */
    struct waiting waiting[WAITING];
    uint8_t ahead[AHEAD];        /* what goes out before the next bytes, in one piece with them */
    size_t ahead_n;
    unsigned long requests, unheard, answers, damaged;
};

static volatile sig_atomic_t stop;

static void on_signal(int number)
{
    (void)number;
    stop = 1;
}

static int64_t now_ms(void)
{
    struct timespec t;

    (void)clock_gettime(CLOCK_MONOTONIC, &t);
    return (int64_t)t.tv_sec * 1000 + t.tv_nsec / 1000000;
}

/* ---- the controllers ---- */

static void power_up(struct rack *rack)
{
    for (uint8_t i = 0; i < rack->count; i++) {
        struct controller *c = &rack->controllers[i];

        c->first = c->address = i;
        c->setpoint = true_setpoint(i);
        c->gain = TRUE_GAIN;
        c->init_step = TRUE_INIT_STEP;
        c->calibration = true_calibration(i);
        c->baud = TRUE_BAUD;
    }
}

static struct said says(uint8_t reply, uint32_t value)
{
    struct said said = { 0, 0 };

    said.reply = reply;
    said.value = value;
    return said;
}

/* Selecting another calibration sets the setpoint to 0 (the maker's note); the stored and the volatile command differ only
   after a restart, which this rack does not do. */
static struct said select_calibration(struct controller *c, uint32_t index)
{
    if (!true_validity(index))
        return says(MFC_REPLY_DEVICE_ERROR, INVALID_CALIBRATION);
    if (index != c->calibration)
        c->setpoint = 0;
    c->calibration = index;
    return says(MFC_REPLY_ACKNOWLEDGED, 0);
}

static struct said execute(struct controller *c, uint8_t request, uint32_t value)
{
    switch (request) {
    case MFC_REQUEST_GET_SETPOINT: return says(MFC_REPLY_SETPOINT, c->setpoint);
    case MFC_REQUEST_SET_SETPOINT: c->setpoint = value; break;
    case MFC_REQUEST_MEASURED_VALUE: return says(MFC_REPLY_MEASURED_VALUE, c->setpoint);
    case MFC_REQUEST_GET_GAIN: return says(MFC_REPLY_GAIN, c->gain);
    case MFC_REQUEST_SET_GAIN: c->gain = value; break;
    case MFC_REQUEST_GET_INIT_STEP: return says(MFC_REPLY_INIT_STEP, c->init_step);
    case MFC_REQUEST_SET_INIT_STEP: c->init_step = value; break;
    case MFC_REQUEST_RAW_FLOW: return says(MFC_REPLY_RAW_FLOW, true_raw_flow(c->first));
    case MFC_REQUEST_RAW_CONDUCTIVITY: return says(MFC_REPLY_RAW_CONDUCTIVITY, true_raw_conductivity(c->first));
    case MFC_REQUEST_TEMPERATURE: return says(MFC_REPLY_TEMPERATURE, true_temperature(c->first));
    case MFC_REQUEST_NUMBER_OF_CALIBRATIONS: return says(MFC_REPLY_NUMBER_OF_CALIBRATIONS, CALIBRATIONS);
    case MFC_REQUEST_VALIDITY: return says(MFC_REPLY_VALIDITY, (uint32_t)true_validity(value));
    case MFC_REQUEST_FULL_SCALE: return says(MFC_REPLY_FULL_SCALE, true_full_scale(c->calibration));
    case MFC_REQUEST_GET_CALIBRATION: return says(MFC_REPLY_CALIBRATION, c->calibration);
    case MFC_REQUEST_SET_CALIBRATION: case MFC_REQUEST_VOLATILE_CALIBRATION: return select_calibration(c, value);
    case MFC_REQUEST_GET_ADDRESS: return says(MFC_REPLY_ADDRESS, c->address);
    case MFC_REQUEST_SET_ADDRESS: c->address = (uint8_t)value; break;
    case MFC_REQUEST_GET_BAUD: return says(MFC_REPLY_BAUD, c->baud);
    case MFC_REQUEST_SET_BAUD: c->baud = value; break;
    case MFC_REQUEST_PRODUCT_TYPE: return says(MFC_REPLY_PRODUCT_TYPE, 0);
    default: return says(MFC_REPLY_DEVICE_ERROR, UNKNOWN_COMMAND);
    }
    return says(MFC_REPLY_ACKNOWLEDGED, 0);
}

/* ---- the line ---- */

/* Writes down bytes that crossed the line. */
static void note(struct rack *rack, char side, const uint8_t *bytes, size_t n)
{
    if (rack->wire == NULL)
        return;
    (void)fputc(side, rack->wire);
    for (size_t i = 0; i < n; i++)
        (void)fprintf(rack->wire, " %02X", bytes[i]);
    (void)fputc('\n', rack->wire);
}

/* Keeps bytes to be sent ahead of the next. */
static void put_ahead(struct rack *rack, const uint8_t *bytes, size_t n)
{
    if (n > AHEAD - rack->ahead_n)
        return;
    memcpy(rack->ahead + rack->ahead_n, bytes, n);
    rack->ahead_n += n;
}

/* Sends bytes. A line does not wait for a master that does not listen: what the terminal cannot hold is lost. */
static void put_now(struct rack *rack, const uint8_t *bytes, size_t n)
{
    ssize_t sent;

    put_ahead(rack, bytes, n);
    do
        sent = write(rack->master, rack->ahead, rack->ahead_n);
    while (sent < 0 && errno == EINTR);
    if (sent > 0)
        note(rack, '2', rack->ahead, (size_t)sent);
    rack->ahead_n = 0;
}

/* Sends bytes to a master that listens: where the terminal cannot hold more, this waits until some were taken. */
static void put_waiting(struct rack *rack, const uint8_t *bytes, size_t n)
{
    while (n > 0) {
        struct pollfd one = { 0, POLLOUT, 0 };
        ssize_t sent;

        one.fd = rack->master;
        if (poll(&one, 1, SILENCE_MS) <= 0)
            return;
        sent = write(rack->master, bytes, n);
        if (sent <= 0)
            return;
        note(rack, '2', bytes, (size_t)sent);
        bytes += sent;
        n -= (size_t)sent;
    }
}

/* Sends an answer with the bytes of --fill in it, which may be more than the terminal holds. */
static void put_filled(struct rack *rack, const uint8_t *bytes, size_t n)
{
    static const uint8_t zeros[1000] = { 0 };
    size_t left = (size_t)rack->fill;

    put_now(rack, bytes, 1);
    while (left > 0) {
        size_t some = left < sizeof zeros ? left : sizeof zeros;

        put_waiting(rack, zeros, some);
        left -= some;
    }
    put_waiting(rack, bytes + 1, n - 1);
}

static void put_later(struct rack *rack, const uint8_t *bytes, size_t n)
{
    for (size_t i = 0; i < WAITING; i++)
        if (rack->waiting[i].due == 0) {
            rack->waiting[i].due = now_ms() + rack->delay_ms;
            rack->waiting[i].n = n;
            memcpy(rack->waiting[i].bytes, bytes, n);
            return;
        }
    put_now(rack, bytes, n);
}

/* Sends what is due. Returns the milliseconds until the next is, at most SILENCE_MS. */
static int put_due(struct rack *rack)
{
    int64_t now = now_ms(), next = now + SILENCE_MS;

    for (size_t i = 0; i < WAITING; i++) {
        struct waiting *w = &rack->waiting[i];

        if (w->due != 0 && w->due <= now) {
            put_now(rack, w->bytes, w->n);
            w->due = 0;
        } else if (w->due != 0 && w->due < next) {
            next = w->due;
        }
    }
    return (int)(next - now);
}

/* Sends one answer over the line as it is today. */
static void put_answer(struct rack *rack, const uint8_t *frame, size_t length)
{
    struct damage *damage = &rack->damage;
    uint8_t bytes[MFC_REPLY_ROOM + MOST_NOISE];
    unsigned struck = 0;
    size_t n = pass_over(damage, frame, length, bytes, &struck), first = n;
    int late = strikes(damage, &damage->late), pause = strikes(damage, &damage->pause);
    int cut = strikes(damage, &damage->cut), held = strikes(damage, &damage->held);

    put_over(damage, bytes, n, &struck);
    if (strikes(damage, &damage->noise)) {
        n = first = add_noise(damage, bytes, n);
        struck++;
    }
    if ((cut || pause) && n > 1)
        first = 1 + random_under(damage, (uint32_t)n - 1);
    rack->answers++;
    rack->damaged += struck > 0 || rack->fill > 0 || late || pause || cut || held;
    if (late) {
        put_later(rack, bytes, n);
        return;
    }
    if (held) {
        put_ahead(rack, bytes, n);
        return;
    }
    if (rack->fill > 0 && first > 1)
        put_filled(rack, bytes, first);
    else
        put_now(rack, bytes, first);
    if (pause && !cut)
        put_later(rack, bytes + first, n - first);
}

/* The address that an answer goes out from. */
static uint8_t sender(struct rack *rack, uint8_t address)
{
    if (!strikes(&rack->damage, &rack->damage.wrong))
        return address;
    rack->damaged++;
    return (uint8_t)((address + 1) % rack->count);
}

static void answer(struct rack *rack, mfc_request asked, struct said said)
{
    static const uint8_t type[] = TRUE_TYPE;
    uint8_t wire[MFC_REPLY_ROOM];
    mfc_written written = mfc_write_reply(sender(rack, asked.address), asked.request, asked.value, said.reply, said.value,
                                          type, sizeof type - 1, 0, wire, sizeof wire);

    if (written.refusal == 0)
        put_answer(rack, wire, written.length);
    else
        (void)fprintf(stderr, "rack: answer %u to request %u refused %u: a fault of this program\n",
                      said.reply, asked.request, written.refusal);
}

/* An answer that the library does not write, laid by hand: address, command, state, L, at most one data byte, checksum. */
static void answer_by_hand(struct rack *rack, uint8_t address, uint8_t command, uint8_t state, uint8_t length, uint8_t data)
{
    uint8_t body[6] = { 0, 0, 0, 0, 0, 0 };
    uint8_t wire[2 * sizeof body + 2];
    size_t n = 0;

    body[0] = address;
    body[1] = command;
    body[2] = state;
    body[3] = length;
    body[4] = data;
    body[4 + length] = mfc_checksum(body, 4u + length);
    wire[n++] = 0x7E;
    for (size_t i = 0; i < 5u + length; i++) {
        uint8_t byte = body[i];

        if (byte == 0x7E || byte == 0x7D || byte == 0x11 || byte == 0x13) {
            wire[n++] = 0x7D;
            byte ^= 0x20;
        }
        wire[n++] = byte;
    }
    wire[n++] = 0x7E;
    put_answer(rack, wire, n);
}

/* An error answer, also to a command that is not in the library's table. */
static void answer_error(struct rack *rack, uint8_t address, uint8_t command, uint8_t code)
{
    answer_by_hand(rack, address, command, code, 0, 0);
}

/* Yes to a question for validity, by another byte than the library's 01. */
static void answer_other_yes(struct rack *rack, uint8_t address)
{
    answer_by_hand(rack, sender(rack, address), 0x40, 0, 1, OTHER_YES);
}

/* ---- requests ---- */

static uint32_t baud_of(speed_t speed)
{
    switch (speed) {
    case B9600: return 9600;
    case B19200: return 19200;
    case B38400: return 38400;
    case B57600: return 57600;
    case B115200: return 115200;
    default: return 0;
    }
}

/* The rate that the master has set. Controllers at another one hear nothing. */
static uint32_t line_baud(const struct rack *rack)
{
    struct termios settings;

    return tcgetattr(rack->slave, &settings) == 0 ? baud_of(cfgetospeed(&settings)) : 0;
}

/* The code for a request that the library refuses to read. The rest is not answered: a bad frame, or set address for all. */
static uint8_t error_code(const uint8_t *body, uint8_t refusal)
{
    int length_right = (body[1] == 0x90 && body[2] == 1) || (body[1] == 0x91 && body[2] == 4);

    switch (refusal) {
    case MFC_REFUSAL_UNKNOWN_COMMAND: return UNKNOWN_COMMAND;
    case MFC_REFUSAL_OUT_OF_RANGE: return length_right ? PARAMETER : DATA_SIZE;
    case MFC_REFUSAL_BAD_FLOAT: return PARAMETER;
    default: return 0;
    }
}

/* One request's frame. More than one controller may have its address, after a set address that was not thought over: each of
   them answers then. All execute what is sent to 255, and none answers. */
static void serve(struct rack *rack, const uint8_t *body, size_t n)
{
    mfc_request asked = mfc_read_request(body, n);
    uint8_t code = error_code(body, asked.refusal);
    uint8_t to = body[0];
    uint32_t baud = line_baud(rack);

    if (asked.refusal != 0 && code == 0)
        return;
    rack->requests++;
    for (long i = 0; i < rack->count; i++) {
        struct controller *c = &rack->controllers[i];
        struct said said;

        if (c->baud != baud || (c->address != to && to != BROADCAST))
            continue;
        if (code != 0) {
            if (to != BROADCAST)
                answer_error(rack, to, body[1], code);
            continue;
        }
        said = execute(c, asked.request, asked.value);
        if (to == BROADCAST)
            continue;
        if (said.reply == MFC_REPLY_VALIDITY && said.value != 0 && c->first == OTHER_YES_AT)
            answer_other_yes(rack, to);
        else
            answer(rack, asked, said);
    }
}

/* Takes a piece, maybe an empty one, and before it the silence, where some came. */
static void take(struct rack *rack, uint8_t silence, const uint8_t *piece, size_t n)
{
    do {
        mfc_fed fed = mfc_feed(rack->record, sizeof rack->record, silence, piece, n, rack->frame, sizeof rack->frame);

        if (fed.refusal == MFC_REFUSAL_NO_ROOM || fed.refusal == MFC_REFUSAL_BAD_RECORD) {
            /* Nothing is taken, and the same call would be refused again. */
            (void)fprintf(stderr, "rack: refused %u (%s): %s\n", fed.refusal, refusal_words(fed.refusal), refusal_advice(fed.refusal));
            rack->faulty = 1;
            return;
        }
        silence = 0;
        if (fed.frame_length != 0)
            serve(rack, rack->frame, fed.frame_length);
        else if (fed.refusal != 0)
            rack->unheard++;
        piece += fed.taken;
        n -= fed.taken;
    } while (n > 0);
}

static void hear(struct rack *rack)
{
    uint8_t bytes[4096], heard[4096];
    ssize_t n = read(rack->master, bytes, sizeof bytes);
    unsigned struck = 0;

    if (n <= 0)
        return;
    note(rack, '1', bytes, (size_t)n);
    if (rack->echo)
        put_ahead(rack, bytes, (size_t)n);
    if (rack->damage_requests)
        take(rack, 0, heard, pass_over(&rack->damage, bytes, (size_t)n, heard, &struck));
    else
        take(rack, 0, bytes, (size_t)n);
    /* Nobody answered: the echo alone. */
    if (rack->echo && rack->ahead_n > 0)
        put_now(rack, bytes, 0);
}

static void run(struct rack *rack)
{
    static const uint8_t nothing[1] = { 0 };
    int64_t end = rack->seconds > 0 ? now_ms() + rack->seconds * 1000 : INT64_MAX;
    int64_t last = now_ms();

    while (!stop && !rack->faulty && now_ms() < end) {
        struct pollfd one = { 0, POLLIN, 0 };

        one.fd = rack->master;
        if (poll(&one, 1, put_due(rack)) > 0) {
            hear(rack);
            last = now_ms();
        } else if (now_ms() - last >= SILENCE_MS) {
            take(rack, 1, nothing, 0);
            last = now_ms();
        }
    }
}

/* ---- start ---- */

static int fault(const char *what)
{
    (void)fprintf(stderr, "rack: %s: %s\n", what, strerror(errno));
    return 0;
}

static int open_terminal(struct rack *rack)
{
    struct termios settings;
    const char *name;

    rack->master = posix_openpt(O_RDWR | O_NOCTTY);
    if (rack->master < 0 || grantpt(rack->master) != 0 || unlockpt(rack->master) != 0)
        return fault("no pseudo-terminal can be had, check that /dev/pts is mounted");
    name = ptsname(rack->master);
    rack->slave = name == NULL ? -1 : open(name, O_RDWR | O_NOCTTY);
    if (rack->slave < 0 || tcgetattr(rack->slave, &settings) != 0)
        return fault("the pseudo-terminal cannot be opened");
    /* Raw from the start: until a master sets the line up, nothing is echoed back. */
    settings.c_iflag = 0;
    settings.c_oflag = 0;
    settings.c_lflag = 0;
    (void)cfsetispeed(&settings, B115200);
    (void)cfsetospeed(&settings, B115200);
    if (tcsetattr(rack->slave, TCSANOW, &settings) != 0 || fcntl(rack->master, F_SETFL, O_NONBLOCK) != 0)
        return fault("the pseudo-terminal cannot be made raw");
    (void)printf("%s\n", name);
    (void)fflush(stdout);
    return 1;
}

static void print_truth(void)
{
    for (uint8_t i = 0; i < RACK; i++) {
        char text[32];

        reading_words(true_measured(i), text, sizeof text);
        (void)printf("controller %2u: measured %s; calibration %lu\n", i, text, (unsigned long)true_calibration(i));
    }
    (void)fputs(TRUE_SENSORS, stdout);
}

static int read_number(const char *text, long low, long high, long *value)
{
    char *end;

    if (text == NULL || *text == '\0')
        return 0;
    errno = 0;
    *value = strtol(text, &end, 10);
    return errno == 0 && *end == '\0' && *value >= low && *value <= high;
}

/* The rate that an option sets, or NULL. */
static struct rate *rate_of(struct damage *damage, const char *option)
{
    struct { const char *name; struct rate *rate; } const rates[] = {
        { "--drop", &damage->drop }, { "--flip", &damage->flip }, { "--noise", &damage->noise }, { "--cut", &damage->cut },
        { "--pause", &damage->pause }, { "--late", &damage->late }, { "--held", &damage->held }, { "--wrong", &damage->wrong },
    };

    for (size_t i = 0; i < sizeof rates / sizeof rates[0]; i++)
        if (strcmp(option, rates[i].name) == 0)
            return rates[i].rate;
    return NULL;
}

static int wrong_usage(const char *option)
{
    (void)fprintf(stderr, "rack: %s: unknown, or its value is missing or out of range (see rack --help)\n", option);
    return 0;
}

static int read_options(struct rack *rack, int argc, char **argv)
{
    for (int i = 1; i < argc; i++) {
        const char *option = argv[i];
        struct rate *rate = rate_of(&rack->damage, option);
        long seed, before;
        int good;

        if (rate != NULL) {
            good = read_rate(argv[++i], rate);
        } else if (strcmp(option, "--requests") == 0) {
            good = rack->damage_requests = 1;
        } else if (strcmp(option, "--echo") == 0) {
            good = rack->echo = 1;
        } else if (strcmp(option, "--before") == 0) {
            good = read_number(argv[++i], 1, MOST_NOISE, &before);
            rack->damage.before = good ? (size_t)before : 0;
        } else if (strcmp(option, "--put") == 0) {
            good = read_put(argv[++i], &rack->damage);
        } else if (strcmp(option, "--fill") == 0) {
            good = read_number(argv[++i], 1, 100000, &rack->fill);
        } else if (strcmp(option, "--controllers") == 0) {
            good = read_number(argv[++i], 1, MOST_CONTROLLERS, &rack->count);
        } else if (strcmp(option, "--delay") == 0) {
            good = read_number(argv[++i], 1, 10000, &rack->delay_ms);
        } else if (strcmp(option, "--seconds") == 0) {
            good = read_number(argv[++i], 1, 86400, &rack->seconds);
        } else if (strcmp(option, "--wire") == 0) {
            rack->wire_name = argv[++i];
            good = rack->wire_name != NULL;
        } else if (strcmp(option, "--seed") == 0) {
            good = read_number(argv[++i], 0, 2000000000, &seed);
            rack->damage.state = good ? (uint64_t)seed : 0;
        } else {
            good = 0;
        }
        if (!good)
            return wrong_usage(option);
    }
    return 1;
}

static void stop_on_signals(void)
{
    struct sigaction action;

    memset(&action, 0, sizeof action);
    action.sa_handler = on_signal;
    (void)sigemptyset(&action.sa_mask);
    (void)sigaction(SIGINT, &action, NULL);
    (void)sigaction(SIGTERM, &action, NULL);
}

int main(int argc, char **argv)
{
    static struct rack rack;

    rack.count = RACK;
    rack.delay_ms = 300;
    rack.damage.state = 1;
    if (argc == 2 && strcmp(argv[1], "--help") == 0) {
        (void)fputs(help, stdout);
        return 0;
    }
    if (argc == 2 && strcmp(argv[1], "--truth") == 0) {
        print_truth();
        return 0;
    }
    if (!read_options(&rack, argc, argv))
        return 2;
    power_up(&rack);
    stop_on_signals();
    if (rack.wire_name != NULL && (rack.wire = fopen(rack.wire_name, "w")) == NULL) {
        (void)fault(rack.wire_name);
        return 3;
    }
    if (mfc_receiver_fresh(MFC_KIND_REQUEST, rack.record, sizeof rack.record) != 0 || !open_terminal(&rack))
        return 3;
    run(&rack);
    (void)printf("requests %lu, unheard %lu, answers %lu, damaged %lu\n",
                 rack.requests, rack.unheard, rack.answers, rack.damaged);
    if (rack.wire != NULL && (ferror(rack.wire) || fclose(rack.wire) != 0)) {
        (void)fault(rack.wire_name);
        return 3;
    }
    return rack.faulty ? 3 : 0;
}
