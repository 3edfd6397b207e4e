#include "plain_replay.h"

#include "plain.h"
#include "plain_board.h"
#include "plain_log.h"

#include <string.h>

#define TRAILER 3                /* the bytes behind a body: kind and length */
#define MOST_RECORDS 21666       /* of a log: 65,000 bytes of empty ones */
#define SET_CALIBRATION 14
#define VOLATILE_CALIBRATION 15
#define CALIBRATION_ENTRY 2

struct replay {
    struct plain_receiver requests, replies;
    struct plain_request latest; /* with a refusal where there is none yet, or it was refused as a request */
    uint32_t lease;
    uint8_t refusal;             /* 19 where an opening met it */
    mfc_entry table[MFC_BOARD_PLACES];
};

/* A reply frame: what it opens or closes where it is accepted. */
static void answer(struct replay *replay, const uint8_t *body, size_t n)
{
    struct plain_request latest = replay->latest;

    if (latest.refusal != 0 || plain_read_reply(latest.address, latest.request, latest.value, body, n).refusal != 0)
        return;
    if (latest.request == VOLATILE_CALIBRATION)
        replay->refusal = plain_board_open(replay->table, MFC_BOARD_PLACES, 0, latest.address, CALIBRATION_ENTRY, replay->lease);
    else if (latest.request == SET_CALIBRATION)
        (void)plain_board_close(replay->table, MFC_BOARD_PLACES, 0, latest.address, CALIBRATION_ENTRY);
}

static void hear_requests(struct replay *replay, const uint8_t *piece, const uint8_t *end)
{
    while (piece < end) {
        struct plain_fed fed = plain_feed_own(&replay->requests, 0, piece, (size_t)(end - piece));

        if (fed.frame_length > 0)
            replay->latest = plain_read_request(replay->requests.store, fed.frame_length);
        piece += fed.taken;
    }
}

/* Up to the end, or to the opening that met 19. */
static void hear_replies(struct replay *replay, const uint8_t *piece, const uint8_t *end)
{
    while (piece < end && replay->refusal == 0) {
        struct plain_fed fed = plain_feed_own(&replay->replies, 0, piece, (size_t)(end - piece));

        if (fed.frame_length > 0)
            answer(replay, replay->replies.store, fed.frame_length);
        piece += fed.taken;
    }
}

static void mark(struct replay *replay)
{
    (void)plain_feed_own(&replay->requests, 1, NULL, 0);
    (void)plain_feed_own(&replay->replies, 1, NULL, 0);
    plain_board_poll_own(replay->table);
}

static void run(struct replay *replay, const uint8_t *file, const uint16_t *ends, size_t count)
{
    const uint8_t *start = file;

    for (size_t i = 0; i < count && replay->refusal == 0; i++) {
        const uint8_t *end = file + ends[i], *trailer = end - TRAILER;

        if (trailer[0] == 1)
            hear_requests(replay, start, trailer);
        else if (trailer[0] == 2)
            hear_replies(replay, start, trailer);
        else
            mark(replay);
        start = end;
    }
}

/* A trailer stands behind its body, so there is no way forward through a log: the ends of all records are written down first. */
mfc_listed plain_log_replay(const uint8_t *file, size_t length, uint32_t lease, mfc_entry *entries, size_t room)
{
    mfc_listed listed = { 12, 0 };
    uint16_t ends[MOST_RECORDS];
    struct replay replay;
    mfc_words checked;

    if (lease < 1 || lease > 65535)
        return listed;
    checked = plain_log_check(file, length);
    listed.refusal = checked.refusal;
    if (checked.refusal != 0)
        return listed;
    plain_log_ends(file, length, ends, checked.count);
    memset(&replay, 0, sizeof replay);
    plain_fresh(&replay.requests, 0);
    plain_fresh(&replay.replies, 1);
    replay.latest.refusal = 11;
    replay.lease = lease;
    run(&replay, file, ends, checked.count);
    listed.refusal = replay.refusal;
    return replay.refusal != 0 ? listed : plain_board_list(replay.table, MFC_BOARD_PLACES, entries, room);
}
