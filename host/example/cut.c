/* cut: a power cut, for the test of the log. Its functions stand before those by which the supervisory program writes a file: the
 * linker's --wrap puts them there. They count the calls, and at the one that the variable CUT_AT names, from 1, the program is gone.
 * Of what was written and not synced half is lost then, whatever name the file has by that time.
 *
 * A file that is begun before the last one's name was synced ends the program with status 99: after a power cut the older log could be
 * missing what the newer one goes on from.
 *
 * And a fault of the program itself: from the call of mfc_feed that SPOIL_AT names the receiver's record is spoilt, from the one that
 * SHORT_AT names the room is a byte short. */
#define _POSIX_C_SOURCE 200809L
#include "mfc.h"

#include <fcntl.h>
#include <signal.h>
#include <stdarg.h>
#include <stdio.h>
#include <stdlib.h>
#include <sys/stat.h>
#include <unistd.h>

int __real_open(const char *path, int flags, ...);
ssize_t __real_write(int fd, const void *bytes, size_t n);
int __real_fsync(int fd);
int __real_rename(const char *from, const char *to);
mfc_fed __real_mfc_feed(uint8_t *record, size_t size, uint8_t silence, const uint8_t *piece, size_t n, uint8_t *frame, size_t room);
int __wrap_open(const char *path, int flags, ...);
ssize_t __wrap_write(int fd, const void *bytes, size_t n);
int __wrap_fsync(int fd);
int __wrap_rename(const char *from, const char *to);
mfc_fed __wrap_mfc_feed(uint8_t *record, size_t size, uint8_t silence, const uint8_t *piece, size_t n, uint8_t *frame, size_t room);

static int file = -1;            /* the file begun last, as the program has it */
static int spare = -1;           /* the same, open for this program's end */
static off_t synced, written;    /* its bytes */
static int named;                /* a file got its name, and its folder is not synced */
static long calls, feeds;

static void count_call(void)
{
    const char *at = getenv("CUT_AT");

    if (at == NULL || ++calls != atol(at))
        return;
    if (spare >= 0 && ftruncate(spare, synced + (written - synced) / 2) != 0)
        _exit(98);
    (void)raise(SIGKILL);
}

int __wrap_open(const char *path, int flags, ...)
{
    va_list rest;
    int mode = 0;

    if ((flags & O_CREAT) == 0)
        return __real_open(path, flags);
    va_start(rest, flags);
    mode = va_arg(rest, int);
    va_end(rest);
    count_call();
    if (named) {
        (void)fprintf(stderr, "cut: %s is begun before the last file's name is synced\n", path);
        _exit(99);
    }
    file = __real_open(path, flags, mode);
    if (spare >= 0)
        (void)close(spare);
    spare = file < 0 ? -1 : dup(file);
    synced = written = 0;
    return file;
}

ssize_t __wrap_write(int fd, const void *bytes, size_t n)
{
    ssize_t done;

    if (fd != file)
        return __real_write(fd, bytes, n);
    count_call();
    done = __real_write(fd, bytes, n);
    if (done > 0)
        written += done;
    return done;
}

int __wrap_fsync(int fd)
{
    struct stat found;

    count_call();
    if (fstat(fd, &found) == 0 && S_ISDIR(found.st_mode))
        named = 0;
    else if (fd == file)
        synced = written;
    return __real_fsync(fd);
}

int __wrap_rename(const char *from, const char *to)
{
    count_call();
    named = 1;
    return __real_rename(from, to);
}

mfc_fed __wrap_mfc_feed(uint8_t *record, size_t size, uint8_t silence, const uint8_t *piece, size_t n, uint8_t *frame, size_t room)
{
    const char *spoil = getenv("SPOIL_AT"), *shorten = getenv("SHORT_AT");

    feeds++;
    if (spoil != NULL && feeds >= atol(spoil))
        record[1] = 5;
    if (shorten != NULL && feeds >= atol(shorten))
        room--;
    return __real_mfc_feed(record, size, silence, piece, n, frame, room);
}
