/* frames.c: the program `frames` as one writes it in plain C, to be timed beside it: the plain receiver and stdio.
 *   frames < FILE        the items of request-side bytes, one line each, and a last line with the bytes read
 *   frames make N        a capture of N polling requests to 24 controllers, to standard output */
#include "plain.h"

#include <stdio.h>
#include <stdlib.h>
#include <string.h>

#define PIECE 4096
#define MEASURED 2
#define CALIBRATION 13

static int make(unsigned long n)
{
    uint8_t frame[17];

    for (unsigned long i = 0; i < n; i++) {
        struct plain_written written =
            plain_write_request((uint8_t)(i / 2 % 24), i % 2 == 0 ? MEASURED : CALIBRATION, 0, frame, sizeof frame);

        fwrite(frame, 1, written.length, stdout);
    }
    return fflush(stdout) == 0 ? 0 : 1;
}

/* Lines are made by hand, since printf would take more time than the receiver. */
static char *put_number(char *at, unsigned long n)
{
    char digits[20];
    size_t k = 0;

    do
        digits[k++] = (char)('0' + n % 10);
    while ((n /= 10) > 0);
    while (k > 0)
        *at++ = digits[--k];
    return at;
}

static void put_line(const char *word, const unsigned long *numbers, size_t n)
{
    char line[64], *at = line;

    while (*word != 0)
        *at++ = *word++;
    for (size_t i = 0; i < n; i++) {
        *at++ = ' ';
        at = put_number(at, numbers[i]);
    }
    *at++ = '\n';
    fwrite(line, 1, (size_t)(at - line), stdout);
}

static int list(void)
{
    static struct plain_receiver receiver;
    static uint8_t piece[PIECE], frame[260];
    unsigned long count = 0;
    size_t n;

    plain_fresh(&receiver, 0);
    while ((n = fread(piece, 1, sizeof piece, stdin)) > 0) {
        for (size_t at = 0; at < n;) {
            struct plain_fed fed = plain_feed(&receiver, 0, piece + at, n - at, frame, sizeof frame);

            if (fed.refusal == 3 || fed.refusal == 4)
                put_line(fed.refusal == 3 ? "refused 3 at" : "refused 4 at", (unsigned long[]){ fed.place }, 1);
            else if (fed.refusal != 0)
                put_line("refused", (unsigned long[]){ fed.refusal }, 1);
            else if (fed.frame_length > 0)
                put_line("frame", (unsigned long[]){ frame[0], frame[1], frame[2] }, 3);
            at += fed.taken;
        }
        count += n;
    }
    put_line("end", &count, 1);
    return fflush(stdout) == 0 ? 0 : 1;
}

int main(int argc, char **argv)
{
    if (argc == 3 && strcmp(argv[1], "make") == 0)
        return make(strtoul(argv[2], NULL, 10));
    if (argc == 1)
        return list();
    fprintf(stderr, "usage: frames < FILE, or frames make N\n");
    return 2;
}
