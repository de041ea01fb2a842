/* The trunk as an interface of this machine. It stands for the switch chip: it takes in from ports that collect, and sends on ports that distribute. */
#ifndef LACP_TAP_H
#define LACP_TAP_H

#include <stdbool.h>
#include <stdint.h>

#include "options.h"
#include "port.h"
#include "text.h"

struct tap {
    int file;                          /* -1 if there is none, or none any more */
    uint32_t trunk;                    /* which one it is, 0 for none yet */
    uint32_t collecting, distributing; /* as it is programmed */
    int64_t joined[PORTS + 1];         /* since when a port may be sent on, now(); 0 if it may not */
    bool has_carrier;
    uint64_t sent, received, lost;
};

/* Makes the interface, and switches it on. Its address is made from the system's, and is that of none of these ports. */
bool tap_open(struct tap *tap, const char *name, const uint8_t system[6], const struct port *ports, uint32_t count, struct text *trouble);

/* Which trunk it is from now on, where these ports of each trunk collect and distribute. */
void tap_follow(struct tap *tap, uint32_t trunks, const uint32_t *collect, const uint32_t *distribute);

/* Programs it: takes in from these ports alone, of `count`, from 1; sends on none but these from now on; sends on these, on one that joins others a second later. */
void tap_collect(struct tap *tap, const struct port *ports, uint32_t count, uint32_t set);
void tap_send_on_none_but(struct tap *tap, uint32_t set);
void tap_distribute(struct tap *tap, uint32_t set);

/* Carries a bounded number of frames: those that came in on a port; those of the interface. */
void tap_take_in(struct tap *tap, const struct port *ports, uint32_t port);
void tap_send_out(struct tap *tap, const struct port *ports, uint32_t count);

/* The port of a set, which is not empty, that a frame goes out on: frames of one conversation on one port. */
uint32_t tap_port_of(const uint8_t *frame, size_t length, uint32_t set);

#endif
