#define _DEFAULT_SOURCE /* flock */
#include "log.h"

#include "mfc.h"
#include "words.h"

#include <errno.h>
#include <fcntl.h>
#include <stdio.h>
#include <string.h>
#include <sys/file.h>
#include <sys/stat.h>
#include <unistd.h>

#define LONGEST_NAME 1000
#define NAME_ROOM (LONGEST_NAME + 24)             /* with a point and a number */
#define LARGEST_GAP 100000                        /* of numbers in a row whose logs were moved away: looked for once, in under a second */
#define LONGEST_BODY ((size_t)MFC_LOG_ROOM - 8 - 3) /* of a log's only record: all but its trailer and the log's last eight bytes */

static struct {
    char file[LONGEST_NAME + 1]; /* as the user gave it; empty where no log is kept */
    char folder[LONGEST_NAME + 1];
    char fresh[NAME_ROOM];       /* FILE.new, which is written first */
    char name[NAME_ROOM];        /* the log's: FILE, or FILE.1 and so on */
    unsigned long number;        /* in that name, 0 for FILE */
    int held;                    /* the log's file, open and locked: no other program goes on with it */
    uint8_t bytes[MFC_LOG_ROOM + 1]; /* the log; a byte more than any has, so that a file that is too long is not taken for one */
    size_t length;
    int saved;                   /* all of it is on disk */
    int failing;                 /* it could not be saved, and the user knows */
    int full;                    /* a record found no room in it: it gets no other, which would stand in that one's place */
    int losing;                  /* the last record is in no log, and the user knows */
    unsigned long lost;          /* records that are in no log */
} kept;

int log_is_whole(void)
{
    return kept.file[0] == '\0' || (kept.saved && kept.lost == 0);
}

/* ---- files ---- */

static void set_name(unsigned long number)
{
    kept.number = number;
    if (number == 0)
        (void)snprintf(kept.name, sizeof kept.name, "%s", kept.file);
    else
        (void)snprintf(kept.name, sizeof kept.name, "%s.%lu", kept.file, number);
}

static int is_there(void)
{
    struct stat found;

    return lstat(kept.name, &found) == 0;
}

/* Why a file cannot be written, and what to do. */
static const char *disk_advice(int number)
{
    switch (number) {
    case ENOSPC: case EDQUOT: case EFBIG:
        return "the disk is full, or this user's part of it: make room there";
    case EACCES: case EPERM: case EROFS:
        return "no permission: let this user read and write that folder, or give another FILE";
    case ENOENT: case ENOTDIR:
        return "no such folder: make it, or give another FILE";
    case ENAMETOOLONG:
        return "the name is too long: give a shorter one";
    case EEXIST: case EISDIR:
        return "something else has the name FILE.new: move it away";
    default:
        return "check the disk and its plug";
    }
}

static int write_all(int fd)
{
    size_t done = 0;

    while (done < kept.length) {
        ssize_t n = write(fd, kept.bytes + done, kept.length - done);

        if (n >= 0)
            done += (size_t)n;
        else if (errno != EINTR)
            return 0;
    }
    return 1;
}

/* A new name is on disk when its folder is. A file system that cannot sync a folder says EINVAL. */
static int sync_folder(void)
{
    int fd = open(kept.folder, O_RDONLY | O_DIRECTORY);
    int good = fd >= 0 && (fsync(fd) == 0 || errno == EINVAL);
    int number = errno;

    if (fd >= 0)
        (void)close(fd);
    errno = number;
    return good;
}

/* Keeps the log's new file open, and locked, in place of the old one. */
static void hold(int fd)
{
    if (kept.held >= 0)
        (void)close(kept.held);
    kept.held = fd;
}

/* Puts the log on disk in place of the file that has its name. The new file is whole and synced before it gets the name. Returns 0
   where that fails, with the reason in errno. */
static int replace(void)
{
    int fd;

    (void)unlink(kept.fresh); /* a power cut may have left it */
    fd = open(kept.fresh, O_WRONLY | O_CREAT | O_EXCL, 0644);
    if (fd < 0)
        return 0;
    (void)flock(fd, LOCK_EX | LOCK_NB);
    if (!write_all(fd) || fsync(fd) != 0 || rename(kept.fresh, kept.name) != 0) {
        int number = errno;

        (void)close(fd);
        (void)unlink(kept.fresh);
        errno = number;
        return 0;
    }
    hold(fd);
    return sync_folder();
}

/* ---- opening ---- */

/* What to tell the user of the file that has the log's name. */
static const char *fault(const char *what, const char *advice)
{
    static char text[NAME_ROOM + 256];

    (void)snprintf(text, sizeof text, "%s %s: %s", kept.name, what, advice);
    return text;
}

static const char *no_log(uint8_t refusal)
{
    static char what[160];

    (void)snprintf(what, sizeof what, "is no good log and was not changed (refused %u, %s)", refusal, refusal_words(refusal));
    return fault(what, refusal_advice(refusal));
}

/* Reads as much as there is room for, which is more than a log has. */
static int read_all(int fd)
{
    kept.length = 0;
    while (kept.length < sizeof kept.bytes) {
        ssize_t n = read(fd, kept.bytes + kept.length, sizeof kept.bytes - kept.length);

        if (n == 0)
            return 1;
        if (n > 0)
            kept.length += (size_t)n;
        else if (errno != EINTR)
            return 0;
    }
    return 1;
}

/* Whether the log's name leads to the file that is held. It does not where another program has just replaced that file. */
static int is_held(void)
{
    struct stat held, named;

    return fstat(kept.held, &held) == 0 && stat(kept.name, &named) == 0 && held.st_dev == named.st_dev
        && held.st_ino == named.st_ino;
}

static const char *others(void)
{
    return fault("is the log of another program that runs", "stop that one, or give another FILE");
}

/* Goes on with the log that is there. */
static const char *go_on(void)
{
    struct stat found;
    mfc_words checked;
    int fd = open(kept.name, O_RDONLY | O_NONBLOCK | O_NOCTTY);

    if (fd < 0)
        return fault("cannot be read", "let this user read it, or give another FILE");
    hold(fd);
    if (fstat(fd, &found) != 0 || !S_ISREG(found.st_mode))
        return fault("is no file", "give the name of a file");
    if ((flock(fd, LOCK_EX | LOCK_NB) != 0 && errno == EWOULDBLOCK) || !is_held())
        return others();
    if (!read_all(fd))
        return fault("cannot be read", "check the disk and its plug");
    checked = mfc_log_check(kept.bytes, kept.length);
    if (checked.refusal != 0)
        return no_log(checked.refusal);
    kept.saved = 1;
    (void)printf("log %s: going on after %lu records\n", kept.name, (unsigned long)checked.count);
    return NULL;
}

static void begin_empty(void)
{
    kept.length = mfc_log_empty(kept.bytes, sizeof kept.bytes).length;
    kept.saved = kept.full = 0;
}

/* The newest log has the highest number. Older ones may have been moved away. */
static void find_newest(void)
{
    unsigned long newest = 0;

    for (unsigned long number = 1; number - newest <= LARGEST_GAP; number++) {
        set_name(number);
        if (is_there())
            newest = number;
    }
    set_name(newest);
}

const char *log_open(const char *file)
{
    const char *slash = strrchr(file, '/');
    size_t n = strlen(file);

    if (n > LONGEST_NAME)
        return "the name is too long: give a shorter one";
    if (n >= 4 && strcmp(file + n - 4, ".new") == 0)
        return "a name that ends in .new is that of a log being written: give another FILE";
    (void)snprintf(kept.file, sizeof kept.file, "%s", file);
    (void)snprintf(kept.fresh, sizeof kept.fresh, "%s.new", file);
    (void)snprintf(kept.folder, sizeof kept.folder, "%.*s", slash == NULL ? 1 : (int)(slash - file) + 1, slash == NULL ? "." : file);
    kept.held = -1;
    find_newest();
    if (is_there())
        return go_on();
    /* It is saved now, so that the user is told before the polling of a place where that cannot be done. */
    begin_empty();
    kept.saved = replace();
    if (kept.saved ? !is_held() : errno == ENOENT && is_there())
        return others(); /* both were started at once */
    if (!kept.saved)
        return fault("cannot be written", disk_advice(errno));
    (void)printf("log %s: begun\n", kept.name);
    return NULL;
}

/* ---- records ---- */

/* Saves the log where that is not done. Returns 0 where it fails. */
static int save(void)
{
    if (kept.saved)
        return 1;
    kept.saved = replace();
    if (!kept.saved && !kept.failing)
        (void)printf("*** log %s is NOT saved: %s; it is tried again after each round ***\n", kept.name, disk_advice(errno));
    if (kept.saved && kept.failing)
        (void)printf("log %s: saved again\n", kept.name);
    kept.failing = !kept.saved;
    return kept.saved;
}

/* Closes the log that is full and begins the next, whose name no file has. Returns 0 where the full one cannot be saved. */
static int next_log(void)
{
    kept.full = 1;
    if (!save())
        return 0;
    do
        set_name(kept.number + 1);
    while (is_there());
    begin_empty();
    (void)printf("log %s: begun\n", kept.name);
    return 1;
}

static uint8_t append(uint8_t kind, const uint8_t *bytes, size_t n)
{
    mfc_written written = mfc_log_append(kept.bytes, sizeof kept.bytes, kept.length, kind, bytes, n);

    if (written.refusal == 0) {
        kept.length = written.length;
        kept.saved = 0;
    }
    return written.refusal;
}

/* A record that is refused by an empty log too is not tried again. */
static void add(uint8_t kind, const uint8_t *bytes, size_t n)
{
    uint8_t refusal = kept.full ? (uint8_t)MFC_REFUSAL_OUT_OF_RANGE : append(kind, bytes, n);

    if (refusal == MFC_REFUSAL_OUT_OF_RANGE && !kept.full && next_log())
        refusal = append(kind, bytes, n);
    if (refusal != 0) {
        if (!kept.losing)
            (void)printf("*** log %s: from here on records are LOST (refused %u, %s) ***\n", kept.name, refusal,
                         kept.full ? "it is full and cannot be saved: see the line on that" : "a fault of this program: report it");
        kept.lost++;
    }
    kept.losing = refusal != 0;
}

void log_record(uint8_t kind, const uint8_t *bytes, size_t n)
{
    if (kept.file[0] == '\0')
        return;
    for (; n > LONGEST_BODY; n -= LONGEST_BODY, bytes += LONGEST_BODY)
        add(kind, bytes, LONGEST_BODY);
    add(kind, bytes, n);
}

void log_save(void)
{
    if (kept.file[0] == '\0')
        return;
    if (kept.full)
        (void)next_log();
    else
        (void)save();
}

void log_end(void)
{
    if (kept.file[0] == '\0')
        return;
    if (!save())
        (void)printf("*** log %s is NOT saved: what crossed the line since it was last saved is in no file ***\n", kept.name);
    if (kept.lost > 0)
        (void)printf("*** log %s: %lu records were LOST ***\n", kept.name, kept.lost);
}
