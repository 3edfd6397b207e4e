/* line.h: a serial line with one master (this program), and one question at a time on it. What crosses it goes to the log (log.h), where
   one is kept: each piece as it was sent or heard, each silence that was waited for and heard, and the marks of line_mark. */
#ifndef LINE_H
#define LINE_H

#include "mfc.h"

#include <stddef.h>
#include <stdint.h>

/* The line and all that is held for it: no heap, and well under 64 KiB. */
struct line {
    int fd;
    int timeout_ms;              /* the line counts as silent after so long without a byte */
    int restless;                /* the last question ended with the line not known to be quiet */
    uint8_t silence;             /* whether the receiver is to be told of silence, and has not dealt with it */
    uint8_t fault;               /* 1 or 2 where the receiver's last call was refused so, by a fault of this program; else 0 */
    unsigned long heard;         /* bytes that arrived */
    unsigned long stray;         /* those of them thrown away because no question was open */
    uint8_t record[MFC_RECORD_SIZE]; /* the receiver */
    uint8_t frame[MFC_FRAME_ROOM];   /* the last frame's body */
    uint8_t bytes[4096];         /* what arrived: from `start` to `end` is not yet taken */
    size_t start, end;
};

/* How one question ended. */
enum ending {
    ANSWERED,                    /* `reply` is the answer */
    REFUSED,                     /* `reply.refusal` says why, with a device error `reply.code`, with 3 and 4 `place` where */
    SILENT,                      /* nothing arrived */
    NOISE,                       /* bytes arrived, but none of a frame: noise, or a 7E with nothing behind it */
    LINE_GONE,                   /* hang-up, unplugged, or an error in errno */
    OWN_FAULT                    /* the receiver's record or room is bad, by a fault of this program: `reply.refusal` is 1 or 2 */
};

struct answer {
    enum ending ending;
    mfc_reply reply;
    uint16_t place;              /* with refusals 3 and 4 where in the frame, as the library's mfc_fed has it */
    size_t length;               /* of the frame's body that was read, which stands in `frame` of the line; 0 without one */
};

/* Opens `device` raw at 115,200 8N1 with a fresh receiver of replies. Returns NULL, or what to tell the user. */
const char *line_open(struct line *line, const char *device, int timeout_ms);

/* Changes the baud rate to one of the five. Returns 0 if the device does not take it. */
int line_speed(struct line *line, uint32_t baud);

/* Asks one controller one question and waits for its answer.
   A frame has no sequence number. An answer that comes late is told from the next one by address and command; if a question is
   repeated, ask another in between, as a polling round does.
   On a two-wire line that echoes, the echo of most requests is refused and passed over. That of get gain, raw flow, number of
   calibrations, product type and set address 0 has the bytes of an error answer (code 1): use an adapter that does not echo. */
struct answer line_ask(struct line *line, uint8_t address, uint8_t request, uint32_t value);

/* Whether the line is over: it is gone, or this program is at fault. Every other question would end so too. */
int line_is_over(struct answer answer);

/* Sends bytes as they are, after what line_ask does before a question. Returns 0 if the line is over. */
int line_send(struct line *line, const uint8_t *bytes, size_t n);

/* To be called where the handover board is polled, between two questions: tells the receiver of silence, and gives the log that mark. A
   replay polls its board once for each mark. Returns 0, and logs nothing, if the receiver refuses it: the line is over. */
int line_mark(struct line *line);

/* Waits for the next item, taking bytes as needed. `*refusal` is 0 with a frame, whose length is returned; the refusal's
   number with length 0; and 0 with length 0 where the line fell silent or is gone. With 1 and 2, a fault of this program, silence and bytes
   are kept. */
size_t line_next(struct line *line, uint8_t *refusal);

/* The bytes that the receiver threw away as noise since the line was opened, 4,294,967,295 for more too. Stray bytes are not among
   them, since the receiver does not get those; nor is, on a two-wire line that echoes, what comes behind the echo's 7E. If a fault of
   this program spoils the receiver's record, the count is lost with it, and 0 is told. */
uint32_t line_noise(const struct line *line);

void line_close(struct line *line);

/* Milliseconds of a clock that nobody sets. */
int64_t now_ms(void);

#endif
