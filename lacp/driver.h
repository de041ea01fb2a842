/*
 * What a driver does with the library, for interfaces of Linux: tells it of links, ticks and frames, programs the chip, which is the tap, and sends.
 * The steps are those of docs/GUIDE-FIRMWARE.md; the loop in loop.c takes them in its order.
 */
#ifndef LACP_DRIVER_H
#define LACP_DRIVER_H

#include <stdbool.h>
#include <stdint.h>

#include "options.h"
#include "pcap.h"
#include "port.h"
#include "table.h"
#include "tap.h"

struct driver {
    const struct options *options;
    struct table table;
    struct kept *kept;            /* the copy that the calls of this turn work on */
    struct myrkosti_system system;
    uint32_t count;
    struct port ports[PORTS + 1]; /* from 1 */
    int links;                    /* socket on which the kernel tells of interfaces */
    bool is_list_broken;          /* the list that it is giving may lack some */
    struct tap tap;
    struct pcap pcap;
    enum left left;               /* what it found; with a table it goes on */
    bool something_happened;      /* since the chip was programmed last */
    uint64_t ticks, missed;
    int64_t latest;               /* how late the latest tick was, in nanoseconds */
    unsigned second;              /* which of the seconds that are watched this one is */
};

/* Step 1: asks for the interfaces, and starts the table or goes on with what was left. The driver's table is open already. */
bool driver_begin(struct driver *driver, struct text *trouble);

/* Opens sockets, and tells of each link for the first time. False if that is not allowed. */
bool driver_open(struct driver *driver);

/* Begins and ends a turn: what is done between them is done as a whole, or not at all. */
void driver_begin_turn(struct driver *driver);
void driver_end_turn(struct driver *driver);

/* Step 2: what the kernel tells of interfaces; and what it does not tell unasked, once a second. */
void driver_hear_links(struct driver *driver);
void driver_look_at_links(struct driver *driver);

/* Step 3: one tick, `late` nanoseconds after its time. Looks at carriers too: of a second change within a second the kernel tells up to a second late. */
void driver_tick(struct driver *driver, int64_t late);

/* Step 4: a bounded number of frames of a port. */
void driver_hear(struct driver *driver, uint32_t port);

/* Step 5: programs the chip and sends what is due, if something happened. */
void driver_program_and_send(struct driver *driver);

/* So that every neighbour stops at once: another key on every port. */
void driver_leave(struct driver *driver);

/* Whether a port has something to say and has not said it: three LACPDUs within a second may bar it, or it could not be sent. */
bool driver_has_more_to_say(const struct driver *driver);

#endif
