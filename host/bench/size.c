/* A program that holds every function of the library, or none: their sizes are compared. */
#include "mfc.h"

typedef void (*any)(void);

#ifdef WITH_LIBRARY
static const any functions[] = {
    (any)mfc_checksum, (any)mfc_crc, (any)mfc_write_request, (any)mfc_write_request_at, (any)mfc_read_request,
    (any)mfc_write_reply, (any)mfc_read_reply, (any)mfc_receiver_fresh, (any)mfc_feed, (any)mfc_receiver_noise,
    (any)mfc_read_words, (any)mfc_write_words, (any)mfc_write_sfc6, (any)mfc_write_liquid,
    (any)mfc_edit_user, (any)mfc_edit_advanced,
    (any)mfc_scaled, (any)mfc_scaled_float, (any)mfc_board_open, (any)mfc_board_close, (any)mfc_board_restart,
    (any)mfc_board_poll, (any)mfc_board_list, (any)mfc_board_reply, (any)mfc_board_acknowledged, (any)mfc_log_empty,
    (any)mfc_log_append, (any)mfc_log_check, (any)mfc_log_list, (any)mfc_log_replay,
};
#else
static const any functions[] = { 0 };
#endif

const any *volatile kept = functions;

int main(void)
{
    return kept == 0;
}
