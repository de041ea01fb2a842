/* The loop: the timer first in each turn, then links, then a bounded number of frames of each port; the chip is programmed and sends go once, at its end. */
#ifndef LACP_LOOP_H
#define LACP_LOOP_H

#include "driver.h"
#include "show.h"

/* Lets signals end the loop, and nothing else interrupt it. Before loop_run. */
void loop_catch_signals(void);

/* The last words to every neighbour, a second and a bit at most; nothing is left to go on with. */
void loop_leave(struct driver *driver);

/* Runs until a signal, the options, a closed output or a removed tap end it. Whether as many links carry as the options want. */
bool loop_run(struct driver *driver, struct show *show);

#endif
