/*
 * A chip made of memory, for loop.c: four ports, joined to a neighbour that is a second table of the library. The cable of the last one carries to us
 * alone: that neighbour never hears what it sends. Time is turns of 20 ms. What happens is in `happen`; what the chip is told goes to the standard
 * output, and as the switch is to stop, what the ports' pages show. It ends the program with 1 if an LACPDU says what is not so: that a port collects or
 * has stopped distributing before the chip was told.
 */
#include "chip.h"
#include "myrkosti.h"

#include <stdio.h>
#include <stdlib.h>
#include <string.h>

enum { TURNS_A_TICK = 5, TICKS = 800, QUEUE = 8, ONE_WAY = CHIP_PORTS };
enum { SUBTYPE_AT = 14, LACP = 1, MARKERS = 2, ACTOR_STATE_AT = 32 }; /* of a frame */

struct queue {
    uint8_t frames[QUEUE][MYRKOSTI_FRAME];
    unsigned first, count;
};

static unsigned turns, ticked;
static bool links[CHIP_PORTS + 1], blocked, loses_markers;
static struct queue in[CHIP_PORTS + 1];
static uint32_t collecting, distributing[CHIP_PORTS + 1], leaving, unsettled;
static struct myrkosti_counters pages[CHIP_PORTS + 1];
static uint8_t neighbour[MYRKOSTI_TABLE(CHIP_PORTS)];
static struct myrkosti_counters unread; /* the neighbour has no port pages: one record for all its ports, never read */

static void show(const char *what, uint32_t ports)
{
    printf("%5.1f s  %s", turns / (10.0 * TURNS_A_TICK), what);
    for (uint32_t port = 1; port <= CHIP_PORTS; port++)
        if ((ports >> (port - 1) & 1) != 0)
            printf(" %u", (unsigned)port);
    printf("%s\n", ports == 0 ? " none" : "");
}

static void push(struct queue *queue, const uint8_t *frame)
{
    if (queue->count < QUEUE)
        memcpy(queue->frames[(queue->first + queue->count++) % QUEUE], frame, MYRKOSTI_FRAME);
}

/* ---- the neighbour, which is told everything at once ---- */

static void neighbour_begins(void)
{
    static const uint8_t address[6] = {2, 0, 0, 0, 0, 0xb};
    const struct myrkosti_system system = myrkosti_usual_system(address);
    const struct myrkosti_port_settings settings = myrkosti_usual_settings(address, 1);
    if (myrkosti_start_with(neighbour, sizeof neighbour, CHIP_PORTS, &system, &settings) != MYRKOSTI_DONE)
        exit(1);
}

static void neighbour_speaks(void)
{
    uint8_t frame[MYRKOSTI_FRAME];
    for (uint32_t port = 1; port <= CHIP_PORTS; port++)
        if (myrkosti_fetch(neighbour, sizeof neighbour, port, frame, sizeof frame, &unread) == MYRKOSTI_DONE)
            push(&in[port], frame);
}

static void link(uint32_t port, bool up)
{
    links[port] = up;
    in[port].count = 0;
    myrkosti_line(neighbour, sizeof neighbour, port, up, true);
    printf("%5.1f s  link %u %s\n", turns / (10.0 * TURNS_A_TICK), (unsigned)port, up ? "up" : "down");
}

/* The neighbour sends a Marker, as it would before it moves a conversation to another link. */
static void ask(uint32_t port)
{
    static const uint8_t marker[MYRKOSTI_FRAME] = {0x01, 0x80, 0xc2, 0, 0, 2, 2, 0, 0, 0, 0, 0xb, 0x88, 0x09, 2, 1, 1, 16};
    push(&in[port], marker);
}

/* The chip wants to move conversations from a port, and holds them back. */
static void leave(uint32_t port)
{
    leaving |= 1u << (port - 1);
    printf("%5.1f s  conversations are to leave %u\n", turns / (10.0 * TURNS_A_TICK), (unsigned)port);
}

static void happen(unsigned tick)
{
    if (tick == 1 || tick == 2)
        link(tick, true);
    if (tick == 20 || tick == 24)
        blocked = tick == 20; /* nothing can be sent for 400 ms, just when both ends have something to say */
    if (tick == 40)
        ask(1);
    if (tick == 50 || tick == 90)
        link(2, tick == 90);
    if (tick == 100)
        link(3, true);
    if (tick == 200 || tick == 300 || tick == 400)
        leave(tick / 100 - 1); /* at the second the Marker is lost; at the third, too, and the link falls before its time is over */
    if (tick == 299 || tick == 420)
        loses_markers = tick == 299;
    if (tick == 410 || tick == 411)
        link(3, tick == 411);
    if (tick == 110 || tick == 750)
        link(ONE_WAY, tick == 110);
}

static void show_pages(void)
{
    for (uint32_t port = 1; port <= CHIP_PORTS; port++)
        printf("%5.1f s  page of %u: LACPDUs %u in, %u out; Markers %u in; Responses %u in, %u out\n", turns / (10.0 * TURNS_A_TICK), (unsigned)port,
               (unsigned)pages[port].lacpdus_received, (unsigned)pages[port].lacpdus_sent, (unsigned)pages[port].markers_received,
               (unsigned)pages[port].marker_responses_received, (unsigned)pages[port].marker_responses_sent);
}

/* ---- what loop.c asks for ---- */

bool chip_wait(void)
{
    if (turns == 0)
        neighbour_begins();
    turns++;
    if (turns % TURNS_A_TICK == 0) {
        happen(turns / TURNS_A_TICK);
        myrkosti_tick(neighbour, sizeof neighbour);
    }
    neighbour_speaks();
    if (turns / TURNS_A_TICK < TICKS)
        return true;
    show_pages();
    return false;
}

bool chip_tick_due(void)
{
    const bool due = turns / TURNS_A_TICK != ticked;
    ticked = turns / TURNS_A_TICK;
    return due;
}

void chip_address(uint32_t port, uint8_t address[6])
{
    static const uint8_t first[6] = {2, 0, 0, 0, 0xa, 0};
    memcpy(address, first, 6);
    address[5] = (uint8_t)port;
}

uint16_t chip_rate(uint32_t port)
{
    return port == CHIP_PORTS ? 2 : 1;
}

bool chip_link(uint32_t port)
{
    return links[port];
}

enum chip_duplex chip_duplex(uint32_t port)
{
    return links[port] ? CHIP_FULL : CHIP_UNKNOWN;
}

size_t chip_receive(uint32_t port, uint8_t frame[CHIP_FRAME])
{
    struct queue *queue = &in[port];
    if (queue->count == 0)
        return 0;
    memcpy(frame, queue->frames[queue->first], MYRKOSTI_FRAME);
    queue->first = (queue->first + 1) % QUEUE;
    queue->count--;
    return MYRKOSTI_FRAME;
}

/* Whether the chip does what a state octet says of a port. */
static bool is_so(uint32_t port, uint8_t state)
{
    uint32_t sending = 0;
    for (uint32_t trunk = 1; trunk <= CHIP_PORTS; trunk++)
        sending |= distributing[trunk];
    if ((state & MYRKOSTI_COLLECTING) != 0 && (collecting >> (port - 1) & 1) == 0)
        return false;
    return (state & MYRKOSTI_DISTRIBUTING) != 0 || (sending >> (port - 1) & 1) == 0;
}

bool chip_send(uint32_t port, const uint8_t *frame)
{
    uint8_t out[MYRKOSTI_FRAME];
    uint32_t sent = 0;
    if (frame[SUBTYPE_AT] == LACP && !is_so(port, frame[ACTOR_STATE_AT]))
        exit(1);
    if (blocked || !links[port])
        return false;
    if (port != ONE_WAY && !(loses_markers && frame[SUBTYPE_AT] == MARKERS))
        myrkosti_receive(neighbour, sizeof neighbour, port, frame, MYRKOSTI_FRAME, out, sizeof out, &sent, &unread);
    if (sent != 0)
        push(&in[port], out);
    neighbour_speaks();
    return true;
}

void chip_collect(uint32_t ports)
{
    if (ports != collecting)
        show("traffic comes in on", ports);
    collecting = ports;
}

void chip_distribute(uint32_t trunk, uint32_t ports)
{
    char what[32];
    snprintf(what, sizeof what, "trunk %u goes out on", (unsigned)trunk);
    if (ports != distributing[trunk])
        show(what, ports);
    distributing[trunk] = ports;
}

uint32_t chip_leaving(void)
{
    return leaving;
}

void chip_may_move(uint32_t port, bool arrived)
{
    leaving &= ~(1u << (port - 1));
    printf("%5.1f s  conversations leave %u: %s\n", turns / (10.0 * TURNS_A_TICK), (unsigned)port, arrived ? "all has arrived" : "nothing is under way any more");
}

void chip_unsettled(uint32_t ports)
{
    if (ports != unsettled)
        show("does not settle:", ports);
    unsettled = ports;
}

/* The sentence for the desk, as docs/GUIDE-SUPPORT.md has it. */
void chip_why(uint32_t port, uint32_t cause, uint32_t holder, uint32_t ticks)
{
    static const char *const said[] = {"does not carry", "carries", "carries on its settings alone: no partner is heard to agree",
                                       "does not carry: its link is down", "does not carry: its link is at half duplex, so LACP is off",
                                       "does not carry: no partner is heard on it", "does not carry: its partner is silent", "waits", "waits",
                                       "does not carry: its partner is not in sync with it", "does not carry: its partner is in sync, but does not collect"};
    const bool known = cause < sizeof said / sizeof said[0];
    printf("%5.1f s  port %u %s", turns / (10.0 * TURNS_A_TICK), (unsigned)port, said[known ? cause : MYRKOSTI_NO_CAUSE]);
    if (holder != 0)
        printf(" for port %u", (unsigned)holder);
    if (ticks != 0)
        printf(", %u tick%s more", (unsigned)ticks, ticks == 1 ? "" : "s");
    printf("\n");
}

void chip_page(uint32_t port, const struct myrkosti_counters *counters)
{
    pages[port] = *counters;
}
