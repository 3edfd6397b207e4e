/* pieces: logs pieces that are longer than any that a line gives, for the test of the log.
 *   pieces FILE N..      a piece of each of these numbers of bytes, which are 00, 01 .. FA and again */
#include "log.h"
#include "mfc.h"

#include <stdio.h>
#include <stdlib.h>

int main(int argc, char **argv)
{
    static uint8_t bytes[200000];
    const char *fault = argc > 1 ? log_open(argv[1]) : "give a file";

    for (size_t i = 0; i < sizeof bytes; i++)
        bytes[i] = (uint8_t)(i % 251);
    for (int i = 2; i < argc && fault == NULL; i++) {
        unsigned long n = strtoul(argv[i], NULL, 10);

        if (n > sizeof bytes)
            fault = "give numbers up to 200000";
        else
            log_record(MFC_LOG_REPLY, bytes, n);
    }
    if (fault != NULL) {
        (void)fprintf(stderr, "pieces: %s\n", fault);
        return 2;
    }
    log_end();
    return !log_is_whole();
}
