/* replay: runs a shift log through the receivers again, and prints the handover board as it stands at the log's end. The I2C bus is not in
 * a log, nor are restarts that somebody noted at the console. A log that goes on in FILE.1 is replayed by itself, from an empty board. */
#define _POSIX_C_SOURCE 200809L
#include "board_words.h"
#include "mfc.h"
#include "words.h"

#include <errno.h>
#include <fcntl.h>
#include <stdio.h>
#include <stdlib.h>
#include <string.h>
#include <unistd.h>

enum { SHOWN = 0, LOG_REFUSED = 1, USAGE = 2, NO_FILE = 3 };

static const char help[] =
    "usage: replay LOG LEASE\n"
    "Prints the handover board at the end of a log that supervise --log kept: the temporary calibrations that were loaded and not set for\n"
    "good, each with the polls left. LEASE, 1 to 65535, is the number of polls that each was loaded for. A silence mark is one poll.\n"
    "Exit status: 0 shown, 1 refused, 2 wrong usage, 3 the file cannot be read.\n";

/* A byte more than any log has, so that a file that is too long is not taken for one. */
static uint8_t file[MFC_LOG_ROOM + 1];

/* Reads as much as there is room for. Returns 0, with the reason in errno, where that fails. */
static int read_file(const char *name, size_t *length)
{
    int fd = open(name, O_RDONLY);
    ssize_t n;

    if (fd < 0)
        return 0;
    do {
        n = read(fd, file + *length, sizeof file - *length);
        if (n > 0)
            *length += (size_t)n;
    } while (n > 0 || (n < 0 && errno == EINTR));
    (void)close(fd);
    return n == 0;
}

/* Digits alone. A lease out of its range is the library's to refuse; 0 is returned for what it could not be told. */
static int read_lease(const char *text, uint32_t *lease)
{
    unsigned long value;

    if (text[0] == '\0' || text[strspn(text, "0123456789")] != '\0')
        return 0;
    errno = 0;
    value = strtoul(text, NULL, 10);
    *lease = (uint32_t)value;
    return errno == 0 && value <= UINT32_MAX;
}

int main(int argc, char **argv)
{
    static char out[4096];
    mfc_entry entries[MFC_BOARD_PLACES];
    mfc_listed listed;
    uint32_t lease = 0;
    size_t length = 0;

    (void)setvbuf(stdout, out, _IOLBF, sizeof out);
    if (argc == 2 && strcmp(argv[1], "--help") == 0) {
        (void)fputs(help, stdout);
        return SHOWN;
    }
    if (argc != 3 || !read_lease(argv[2], &lease)) {
        (void)fputs("replay: give a log and a lease, such as night.log 120 (see replay --help)\n", stderr);
        return USAGE;
    }
    if (!read_file(argv[1], &length)) {
        (void)fprintf(stderr, "replay: %s cannot be read (%s): give the name of a log\n", argv[1], strerror(errno));
        return NO_FILE;
    }
    listed = mfc_log_replay(file, length, lease, entries, MFC_BOARD_PLACES);
    if (listed.refusal != 0) {
        (void)fprintf(stderr, "replay: %s with lease %s: refused %u (%s)\n", argv[1], argv[2], listed.refusal,
                      refusal_words(listed.refusal));
        return LOG_REFUSED;
    }
    print_head(entries, listed.count);
    (void)printf("\n");
    print_entries(entries, listed.count);
    return SHOWN;
}
