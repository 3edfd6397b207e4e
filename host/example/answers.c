#include "answers.h"

#include "words.h"

#include <stdio.h>

const char not_acknowledged[] = "no answer (check the sensor's plug, power and address)";

static int is_silent(struct answer answer)
{
    return answer.ending == SILENT || answer.ending == NOISE;
}

/* Of a broken escape and of a bare control byte the library says where in the frame, up to 65,535. */
static void print_place(struct answer answer)
{
    if (answer.reply.refusal == MFC_REFUSAL_BAD_ESCAPE || answer.reply.refusal == MFC_REFUSAL_BARE_CONTROL)
        (void)printf(" at byte %u%s of the frame", answer.place, answer.place == 65535 ? " or later" : "");
}

void print_failure(struct answer answer)
{
    mfc_reply reply = answer.reply;

    if (answer.ending == LINE_GONE)
        (void)printf("no answer (the line is gone)");
    else if (is_silent(answer))
        (void)printf("no answer (%s)", answer.ending == SILENT
                     ? "check the controller's power, address and baud rate"
                     : "only noise or a lone 7E: check the cable, its 120 ohm terminations and the baud rate");
    else if (reply.refusal == MFC_REFUSAL_DEVICE_ERROR)
        (void)printf("refused %u (controller reports error %u, %s: %s)", reply.refusal, reply.code, code_words(reply.code),
                     code_advice(reply.code));
    else {
        (void)printf("refused %u", reply.refusal);
        print_place(answer);
        (void)printf(" (%s: %s)", refusal_words(reply.refusal), refusal_advice(reply.refusal));
    }
}

void print_answer(struct answer answer, struct counts *counts)
{
    char text[32];

    counts->polls++;
    if (answer.ending != ANSWERED) {
        if (is_silent(answer))
            counts->silent++;
        else
            counts->refused++;
        print_failure(answer);
        return;
    }
    counts->answered++;
    if (answer.reply.reply == MFC_REPLY_MEASURED_VALUE) {
        reading_words(answer.reply.value, text, sizeof text);
        (void)printf("%s", text);
    } else {
        (void)printf("%lu", (unsigned long)answer.reply.value);
    }
}

void print_body(const struct line *line, struct answer answer)
{
    if (answer.length == 0)
        return;
    (void)printf("heard");
    for (size_t i = 0; i + 1 < answer.length; i++)
        (void)printf(" %02X", line->frame[i]);
    (void)printf(", checksum %02X\n", mfc_checksum(line->frame, answer.length - 1));
}

void print_reading(struct reading reading, const char *unit, struct counts *counts)
{
    char text[32];

    counts->polls++;
    if (!reading.acknowledged) {
        counts->silent++;
        (void)printf("%s", not_acknowledged);
    } else if (reading.refusal == 0) {
        counts->answered++;
        thousandths_words(reading.thousandths, text, sizeof text);
        (void)printf("%s %s", text, unit);
    } else {
        counts->refused++;
        (void)printf("refused %u (", reading.refusal);
        if (reading.refusal == MFC_REFUSAL_WRONG_CRC)
            (void)printf("word %lu has CRC %02X and should have %02X: ", (unsigned long)reading.word, reading.crc,
                         reading.right_crc);
        else
            (void)printf("%s: ", refusal_words(reading.refusal));
        (void)printf("%s)", refusal_advice(reading.refusal));
    }
}
