#include "orders.h"

#include "answers.h"
#include "handover.h"
#include "sensors.h"

#include <stdio.h>

/* A controller that reports an error has not obeyed. Where nothing was heard, or nothing good, nobody knows: the question may have
   arrived and the answer been lost. */
static void print_unanswered(const struct order *order, struct answer answer)
{
    int reported = answer.ending == REFUSED && answer.reply.refusal == MFC_REFUSAL_DEVICE_ERROR;

    (void)printf("order %s: %s: ", order->line, reported ? "NOT done" : "NOT CONFIRMED");
    print_failure(answer);
    (void)printf("%s\n", reported ? "" : "; the board is unchanged, but the controller may have obeyed: give the order again");
}

static enum outcome order_controller(struct plant *plant, const struct order *order)
{
    uint8_t request = order->verb == LOAD ? MFC_REQUEST_VOLATILE_CALIBRATION : MFC_REQUEST_SET_CALIBRATION;
    struct answer answer = handover_ask(&plant->line, order->address, request, order->calibration, order->lease);

    if (plant->show)
        print_body(&plant->line, answer);
    if (answer.ending != ANSWERED) {
        print_unanswered(order, answer);
        return line_is_over(answer) ? ORDER_LINE_OVER : ORDER_NOT_DONE;
    }
    (void)printf("order %s: done, controller %u uses calibration %lu %s\n", order->line, order->address,
                 (unsigned long)order->calibration, order->verb == LOAD ? "until its restart" : "for good");
    return ORDER_DONE;
}

static enum outcome order_valve(const struct plant *plant, const struct order *order)
{
    int shut = order->verb == SHUT;
    const char *fault = NULL;

    if (!plant->bus)
        fault = "there is no I2C bus: start supervise with --board";
    else if (!(shut ? sfc6_shut(order->address, order->lease) : sfc6_return(order->address)))
        fault = not_acknowledged;
    if (fault != NULL)
        (void)printf("order %s: NOT done: %s\n", order->line, fault);
    else
        (void)printf("order %s: done, the valve of I2C %02X is %s\n", order->line, order->address,
                     shut ? "forced shut" : "in normal control");
    return fault == NULL ? ORDER_DONE : ORDER_NOT_DONE;
}

/* Nothing goes out: the board is told what somebody did. */
static enum outcome note_restart(const struct order *order)
{
    int noted = handover_restarted(order->bus, order->address);

    (void)printf("order %s: %s\n", order->line, noted ? "done, noted as restarted" : "NOT done: see the line before");
    return noted ? ORDER_DONE : ORDER_NOT_DONE;
}

enum outcome carry_out(struct plant *plant, const struct order *order)
{
    switch (order->verb) {
    case LOAD: case SET: return order_controller(plant, order);
    case SHUT: case RETURN: return order_valve(plant, order);
    case RESTARTED: return note_restart(order);
    default: return ORDER_DONE;
    }
}
