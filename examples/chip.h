/* What loop.c needs of a switch chip and its board. stand_in.c is a chip made of memory; yours stands in its place. Ports count from 1. */
#ifndef CHIP_H
#define CHIP_H

#include <stdbool.h>
#include <stddef.h>
#include <stdint.h>

enum { CHIP_PORTS = 4, CHIP_FRAME = 1522 };
enum chip_duplex { CHIP_HALF, CHIP_FULL, CHIP_UNKNOWN };

/* Waits until something happened or a moment has passed. False: the switch is to stop. */
bool chip_wait(void);

/* Whether 100 ms or more have passed since this last said yes. */
bool chip_tick_due(void);

/* The address of a port, or with 0 that of the switch. */
void chip_address(uint32_t port, uint8_t address[6]);

/* A number that ports of one data rate share, not 0. */
uint16_t chip_rate(uint32_t port);

bool chip_link(uint32_t port);
enum chip_duplex chip_duplex(uint32_t port);

/* The next frame to 01-80-C2-00-00-02 that came in on a port, without FCS and with its VLAN tag if it has one; its length, 0 for none. */
size_t chip_receive(uint32_t port, uint8_t frame[CHIP_FRAME]);

/* Sends a frame of 124 octets now. False: it cannot. */
bool chip_send(uint32_t port, const uint8_t *frame);

/* Traffic comes in on these ports alone, as a set: bit 0 is port 1. */
void chip_collect(uint32_t ports);

/* Traffic of this trunk goes out on these ports alone. */
void chip_distribute(uint32_t trunk, uint32_t ports);

/* The ports from which the chip wants to move conversations, as a set: it sends nothing more of these conversations until it may move them. */
uint32_t chip_leaving(void);

/* They may be moved from this port: what was sent there before has arrived, or as far as anybody knows nothing of it is under way any more. */
void chip_may_move(uint32_t port, bool arrived);

/* The links of these ports are up and have not settled for a minute: somebody should look. */
void chip_unsettled(uint32_t ports);

/* For the log and the port's page: why a port carries from now on, or does not, by the numbers of myrkosti_why. */
void chip_why(uint32_t port, uint32_t cause, uint32_t holder, uint32_t ticks);

/* What the page of a port has to show from now on. */
struct myrkosti_counters;
void chip_page(uint32_t port, const struct myrkosti_counters *counters);

#endif
