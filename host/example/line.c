#define _DEFAULT_SOURCE /* CRTSCTS, TIOCEXCL and the rates over 38,400 */
#include "line.h"

#include "log.h"

#include <errno.h>
#include <fcntl.h>
#include <poll.h>
#include <sys/ioctl.h>
#include <termios.h>
#include <time.h>
#include <unistd.h>

/* Bytes may keep coming on a line that never falls silent: after so many timeouts one question is over anyway. */
#define LONGEST 5

int64_t now_ms(void)
{
    struct timespec t;

    (void)clock_gettime(CLOCK_MONOTONIC, &t);
    return (int64_t)t.tv_sec * 1000 + t.tv_nsec / 1000000;
}

/* ---- opening ---- */

static const char *open_error(int number)
{
    switch (number) {
    case ENOENT: case ENODEV: case ENXIO:
        return "no such device: plug in the adapter and give its name, such as /dev/ttyUSB0";
    case EACCES: case EPERM:
        return "no permission: run as a user of the group that owns the device (often dialout)";
    case EBUSY:
        return "in use by another program: stop it, a line has one master";
    case ENOTTY:
        return "not a serial line: give a terminal device such as /dev/ttyUSB0";
    default:
        return "cannot be opened as a serial line: check the name and the adapter";
    }
}

static int speed_of(uint32_t baud, speed_t *speed)
{
    switch (baud) {
    case 9600: *speed = B9600; return 1;
    case 19200: *speed = B19200; return 1;
    case 38400: *speed = B38400; return 1;
    case 57600: *speed = B57600; return 1;
    case 115200: *speed = B115200; return 1;
    default: return 0;
    }
}

/* Raw bytes, eight data bits, no parity, one stop bit, no flow control of any sort. */
static void make_raw(struct termios *settings)
{
    settings->c_iflag &= ~(tcflag_t)(IGNBRK | BRKINT | PARMRK | INPCK | ISTRIP | INLCR | IGNCR | ICRNL | IXON | IXOFF | IXANY);
    settings->c_oflag &= ~(tcflag_t)OPOST;
    settings->c_lflag &= ~(tcflag_t)(ECHO | ECHONL | ICANON | ISIG | IEXTEN);
    settings->c_cflag &= ~(tcflag_t)(CSIZE | PARENB | CSTOPB | CRTSCTS);
    settings->c_cflag |= (tcflag_t)(CS8 | CREAD | CLOCAL);
    /* With VMIN 1 a read of nothing is EAGAIN, and 0 is left to mean hang-up. */
    settings->c_cc[VMIN] = 1;
    settings->c_cc[VTIME] = 0;
}

int line_speed(struct line *line, uint32_t baud)
{
    struct termios settings, found;
    speed_t speed;

    if (!speed_of(baud, &speed) || tcgetattr(line->fd, &settings) != 0)
        return 0;
    make_raw(&settings);
    if (cfsetispeed(&settings, speed) != 0 || cfsetospeed(&settings, speed) != 0
        || tcsetattr(line->fd, TCSANOW, &settings) != 0)
        return 0;
    /* tcsetattr is content if it could set anything at all, so look at what came of it. */
    return tcgetattr(line->fd, &found) == 0 && cfgetospeed(&found) == speed && (found.c_cflag & CSIZE) == CS8
        && (found.c_lflag & ICANON) == 0;
}

const char *line_open(struct line *line, const char *device, int timeout_ms)
{
    line->timeout_ms = timeout_ms;
    line->restless = 0;
    line->silence = line->fault = 0;
    line->heard = line->stray = 0;
    line->start = line->end = 0;
    if (mfc_receiver_fresh(MFC_KIND_REPLY, line->record, sizeof line->record) != 0)
        return "the receiver cannot be made: rebuild this program with the library's own header";
    do
        line->fd = open(device, O_RDWR | O_NOCTTY | O_NONBLOCK);
    while (line->fd < 0 && errno == EINTR);
    if (line->fd < 0)
        return open_error(errno);
    if (!isatty(line->fd)) {
        line_close(line);
        return open_error(ENOTTY);
    }
    /* A line has one master: nobody else is to open it while this one does. */
    (void)ioctl(line->fd, TIOCEXCL);
    if (!line_speed(line, 115200)) {
        line_close(line);
        return "does not take 115,200 baud, 8 data bits, no parity: use another adapter";
    }
    (void)tcflush(line->fd, TCIOFLUSH);
    return NULL;
}

void line_close(struct line *line)
{
    (void)ioctl(line->fd, TIOCNXCL);
    (void)close(line->fd);
    line->fd = -1;
}

/* ---- bytes ---- */

enum heard { BYTES, QUIET, GONE };

/* When silence that begins now has lasted for over the timeout: a millisecond more, since the clock is cut to whole ones. */
static int64_t silent_at(const struct line *line)
{
    return now_ms() + line->timeout_ms + 1;
}

/* Waits until the line can be read (or written), `until` has come, or the line is gone. */
static enum heard wait_for(int fd, short what, int64_t until)
{
    for (;;) {
        struct pollfd one = { 0, 0, 0 };
        int64_t left = until - now_ms();
        int ready;

        one.fd = fd;
        one.events = what;
        ready = poll(&one, 1, left > 0 ? (int)left : 0);
        if (ready > 0)
            /* What arrived before a hang-up is still read, so the hang-up counts only without it. */
            return (one.revents & what) ? BYTES : GONE;
        if (ready == 0)
            return QUIET;
        if (errno != EINTR && errno != EAGAIN)
            return GONE;
    }
}

/* Fills the empty buffer with what arrives until then. */
static enum heard hear(struct line *line, int64_t until)
{
    for (;;) {
        enum heard heard = wait_for(line->fd, POLLIN, until);
        ssize_t n;

        if (heard != BYTES)
            return heard;
        n = read(line->fd, line->bytes, sizeof line->bytes);
        if (n > 0) {
            line->start = 0;
            line->end = (size_t)n;
            line->heard += line->end;
            log_record(MFC_LOG_REPLY, line->bytes, line->end);
            return BYTES;
        }
        if (n == 0)
            errno = EIO;
        if (n == 0 || (errno != EINTR && errno != EAGAIN))
            return GONE;
    }
}

/* Waits until bytes arrive or the line has been silent for the timeout. The log keeps that silence. */
static enum heard hear_out(struct line *line)
{
    enum heard heard = hear(line, silent_at(line));

    if (heard == QUIET)
        log_record(MFC_LOG_SILENCE, NULL, 0);
    return heard;
}

/* Returns how many of the bytes the line took: all of them, unless it is gone. */
static size_t put(struct line *line, const uint8_t *bytes, size_t n)
{
    int64_t until = now_ms() + (int64_t)line->timeout_ms * LONGEST;
    size_t done = 0;

    while (done < n) {
        ssize_t sent;

        if (wait_for(line->fd, POLLOUT, until) != BYTES)
            return done;
        sent = write(line->fd, bytes + done, n - done);
        if (sent > 0)
            done += (size_t)sent;
        else if (sent < 0 && errno != EINTR && errno != EAGAIN)
            return done;
    }
    return done;
}

static int send_all(struct line *line, const uint8_t *bytes, size_t n)
{
    size_t sent = put(line, bytes, n);

    if (sent > 0)
        log_record(MFC_LOG_REQUEST, bytes, sent);
    return sent == n;
}

/* Hands the receiver what it has not yet had: the silence, where it is to be told of some, and the next n bytes, maybe none. It takes up
   to the next item's last byte, and the rest stays for the next call. With 1 and 2 it took nothing and has not dealt with the silence,
   which stays too: a fault of this program, since record and room are its own. */
static mfc_fed feed(struct line *line, size_t n)
{
    mfc_fed fed = mfc_feed(line->record, sizeof line->record, line->silence, line->bytes + line->start, n, line->frame,
                           sizeof line->frame);

    line->fault = 0;
    if (fed.refusal == MFC_REFUSAL_NO_ROOM || fed.refusal == MFC_REFUSAL_BAD_RECORD) {
        line->fault = fed.refusal;
        return fed;
    }
    line->silence = 0;
    line->start += fed.taken;
    return fed;
}

/* Tells the receiver of silence. Returns 0 where it is refused. */
static int mark(struct line *line)
{
    line->silence = 1;
    (void)feed(line, 0);
    return line->fault == 0;
}

int line_mark(struct line *line)
{
    int marked = mark(line);

    if (marked)
        log_record(MFC_LOG_SILENCE, NULL, 0);
    return marked;
}

/* Before a question: what is here now answers no open question, so it is thrown away, and where there was any the line must
   first fall silent. The mark then cuts what the receiver had begun: its refusal 9 is not the answer's. Without this a late answer
   could run into the next one. The log has no mark where the line was not waited for. */
static int settle(struct line *line)
{
    int64_t limit = now_ms() + (int64_t)line->timeout_ms * LONGEST;
    int wait = line->restless || line->start < line->end;

    line->fault = 0;
    line->stray += line->end - line->start;
    do {
        enum heard heard = wait ? hear_out(line) : hear(line, now_ms());

        if (heard == GONE)
            return 0;
        if (heard == QUIET)
            break;
        line->stray += line->end;
        wait = 1;
    } while (now_ms() < limit);
    line->start = line->end = 0;
    line->restless = 0;
    return mark(line);
}

int line_send(struct line *line, const uint8_t *bytes, size_t n)
{
    return settle(line) && send_all(line, bytes, n);
}

/* ---- items ---- */

/* The next item. QUIET says that the line fell silent, or that `limit` came on a line that does not: the receiver is told before any
   other byte is heard, and refusal 9 is given where that cut a frame. */
static enum heard next_item(struct line *line, int64_t limit, mfc_fed *fed)
{
    enum heard heard = BYTES;

    do {
        *fed = feed(line, line->end - line->start);
        if (heard == QUIET || fed->refusal != 0 || fed->frame_length != 0)
            return heard;
        line->restless = now_ms() >= limit;
        heard = line->restless ? QUIET : hear_out(line);
        if (heard == QUIET)
            line->silence = 1;
    } while (heard != GONE);
    return GONE;
}

size_t line_next(struct line *line, uint8_t *refusal)
{
    mfc_fed fed;

    *refusal = 0;
    if (next_item(line, now_ms() + (int64_t)line->timeout_ms * LONGEST, &fed) == GONE)
        return 0;
    *refusal = fed.refusal;
    return fed.frame_length;
}

static struct answer ended(enum ending ending, uint8_t refusal)
{
    struct answer answer = { SILENT, { 0, 0, 0, 0, 0, 0, 0 }, 0, 0 };

    answer.ending = ending;
    answer.reply.refusal = refusal;
    return answer;
}

/* Nothing more can be asked. */
static struct answer over(const struct line *line)
{
    return line->fault != 0 ? ended(OWN_FAULT, line->fault) : ended(LINE_GONE, 0);
}

int line_is_over(struct answer answer)
{
    return answer.ending == LINE_GONE || answer.ending == OWN_FAULT;
}

/* Whether a frame settles the question. One that belongs to another request does not: it is a late answer, or a doubled
   address, and ours may still come. */
static int settles(mfc_reply reply)
{
    return reply.refusal != MFC_REFUSAL_FOREIGN_REPLY;
}

/* Listens until the answer is there or the line is silent. Damage does not end it either: noise or the echo of the request on
   a two-wire line may stand before a good answer. The first refusal is the one reported. */
static struct answer listen_for(struct line *line, uint8_t address, uint8_t request, uint32_t value)
{
    int64_t limit = now_ms() + (int64_t)line->timeout_ms * LONGEST;
    unsigned long heard_before = line->heard;
    struct answer answer = ended(SILENT, 0);

    for (;;) {
        mfc_fed fed;
        enum heard heard = next_item(line, limit, &fed);
        uint8_t refusal = fed.refusal;

        if (heard == GONE || line->fault != 0)
            return over(line);
        if (fed.frame_length != 0) {
            mfc_reply reply = mfc_read_reply(address, request, value, line->frame, fed.frame_length);

            if (settles(reply)) {
                answer.ending = reply.refusal == 0 ? ANSWERED : REFUSED;
                answer.reply = reply;
                answer.length = fed.frame_length;
                return answer;
            }
            refusal = reply.refusal;
        }
        if (refusal != 0 && answer.ending == SILENT) {
            answer = ended(REFUSED, refusal);
            answer.place = fed.place;
        }
        if (heard == QUIET)
            return answer.ending == SILENT && line->heard != heard_before ? ended(NOISE, 0) : answer;
    }
}

struct answer line_ask(struct line *line, uint8_t address, uint8_t request, uint32_t value)
{
    uint8_t out[MFC_REQUEST_ROOM];
    mfc_written written = mfc_write_request(address, request, value, out, sizeof out);

    if (written.refusal != 0)
        return ended(REFUSED, written.refusal);
    if (!line_send(line, out, written.length))
        return over(line);
    return listen_for(line, address, request, value);
}

uint32_t line_noise(const struct line *line)
{
    /* Only a spoilt record is refused, and its count is 0. */
    return mfc_receiver_noise(line->record, sizeof line->record).count;
}
