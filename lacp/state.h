/* What there is to show, read from the library's reports and the driver, in one place for people, lines and JSON. */
#ifndef LACP_STATE_H
#define LACP_STATE_H

#include <stdbool.h>
#include <stdint.h>

#include "driver.h"

enum {
    WARN_LOOP = 0x001,    /* the other end is this very system */
    WARN_RATE = 0x002,    /* ports of different speeds carry in one trunk */
    WARN_CHANGES = 0x004, /* the partner was another one again and again */
    WARN_LOST = 0x008,    /* frames found the queue full in the last seconds */
    WARN_SEND = 0x010,    /* a frame could not be sent and waits */
    WARN_APART = 0x020,   /* it is apart from the trunk with the most ports */
    WARN_DEFAULT = 0x040, /* it carries on its settings alone */
    WARN_BRIDGED = 0x080, /* its interface is in a bridge or bond */
    WARN_CHURN = 0x100,   /* it has not settled for a minute */
    WARN_MARKERS = 0x200  /* more Markers came than are answered */
};
enum { WARNINGS = 10 };
extern const char *const warning_names[WARNINGS];

/* What makes a line if it changes. */
struct port_facts {
    bool is_there, is_enabled, is_up, is_carrying, has_partner;
    uint8_t duplex;
    uint8_t partner[MYRKOSTI_BLOCK_STATE]; /* in force, all but its state */
    uint32_t speed, trunk, cause, holder, warnings;
    uint32_t apart_from, reasons; /* the lowest port that carries in the trunk with the most; 0 where there is none, or this one shares its group */
};

struct trunk_facts {
    uint32_t holding, attached, carrying;
};

struct state {
    struct port_facts ports[PORTS + 1];
    struct trunk_facts trunks[PORTS + 1];
    /* and what changes all the time */
    uint32_t ticks_left[PORTS + 1];
    uint8_t records[PORTS + 1][MYRKOSTI_RECORD];
    int64_t port_since[PORTS + 1]; /* when it began to carry, or stopped; nanoseconds since 1970 */
    int64_t trunk_since[PORTS + 1];
    uint32_t main_trunk; /* that with the most ports that carry, 0 if none does */
    unsigned carrying;   /* how many ports do */
};

/* The state now, where `before` was the last one. */
void state_read(struct state *state, const struct driver *driver, const struct state *before);

/* Whether there is something new to tell of. */
bool state_differs(const struct state *a, const struct state *b, uint32_t count);
bool port_differs(const struct port_facts *a, const struct port_facts *b);

#endif
