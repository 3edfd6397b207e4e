/* orders.h: carries out an order of the console: on the serial line, on the I2C bus, or on the handover board alone. */
#ifndef ORDERS_H
#define ORDERS_H

#include "console.h"
#include "line.h"

/* What orders go to. */
struct plant {
    struct line line;
    int bus;                     /* whether there is an I2C bus */
    int show;                    /* whether the bodies of answers are printed */
};

enum outcome { ORDER_DONE, ORDER_NOT_DONE, ORDER_LINE_OVER };

/* Prints one line on what came of it. */
enum outcome carry_out(struct plant *plant, const struct order *order);

#endif
