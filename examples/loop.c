/* The loop of a driver, to copy from: docs/GUIDE-FIRMWARE.md says why each part is as it is. `tools/c-test.sh` runs it over stand_in.c. */
#include "chip.h"
#include "myrkosti.h"

enum { FRAMES_A_TURN = 64 };
enum { MARKER_WAIT = 20, MARKER_PAUSE = 3 }; /* ticks: nothing is under way for longer; from one Marker of a port to the next, so that there are five a second at most */

static uint8_t table[MYRKOSTI_TABLE(CHIP_PORTS)];
static struct myrkosti_counters counters[CHIP_PORTS + 1]; /* of each port, from zeros: they are kept for as long as this runs */
static uint8_t unsent[CHIP_PORTS + 1][MYRKOSTI_FRAME]; /* of each port, what was fetched and could not be sent */
static uint32_t waiting;                               /* the ports that have such a frame */
static uint32_t collecting, distributing[CHIP_PORTS + 1]; /* as the chip is programmed: ports; ports of each trunk */
static uint32_t carried, churned;                      /* the ports that carried, and that churned, in the turn before */
static uint32_t draining;                              /* the ports on which a Marker is awaited */
static uint32_t pauses[CHIP_PORTS + 1];                /* of each port, the ticks until another may go */

static uint32_t bit(uint32_t port)
{
    return 1u << (port - 1);
}

static void set(uint32_t port, uint16_t key)
{
    uint8_t address[6];
    chip_address(port, address);
    const struct myrkosti_port_settings settings = myrkosti_usual_settings(address, key);
    myrkosti_settings_with(table, sizeof table, port, &settings);
}

/* Step 1. */
static bool begin(void)
{
    uint8_t address[6];
    chip_address(0, address);
    const struct myrkosti_system system = myrkosti_usual_system(address);
    const struct myrkosti_port_settings settings = myrkosti_usual_settings(address, 1);
    if (!myrkosti_fits() || myrkosti_start_with(table, sizeof table, CHIP_PORTS, &system, &settings) != MYRKOSTI_DONE)
        return false;
    for (uint32_t port = 1; port <= CHIP_PORTS; port++)
        set(port, chip_rate(port));
    return true;
}

/* Step 2, as often as you like: values as they are change nothing. Unknown duplex is taken for full. */
static void tell_links(void)
{
    for (uint32_t port = 1; port <= CHIP_PORTS; port++) {
        const bool up = chip_link(port);
        myrkosti_line(table, sizeof table, port, up, chip_duplex(port) != CHIP_HALF);
        if (!up)
            waiting &= ~bit(port); /* what was to be said has nobody to hear it */
    }
}

/* Step 3: one tick, however late it is. */
static void tick(void)
{
    myrkosti_tick(table, sizeof table);
    for (uint32_t port = 1; port <= CHIP_PORTS; port++)
        pauses[port] -= pauses[port] > 0;
}

/* Step 4, a bounded number of frames in a turn, so that a flood on one port delays neither ticks nor the others. */
static void hear(void)
{
    uint8_t frame[CHIP_FRAME], response[MYRKOSTI_FRAME];
    for (uint32_t port = 1; port <= CHIP_PORTS; port++) {
        for (int frames = 0; frames < FRAMES_A_TURN; frames++) {
            const size_t length = chip_receive(port, frame);
            uint32_t sent;
            if (length == 0)
                break;
            myrkosti_receive(table, sizeof table, port, frame, length, response, sizeof response, &sent, &counters[port]);
            if (sent != 0)
                chip_send(port, response); /* one that cannot go is lost: who sent the Marker asks again */
        }
    }
}

/* A frame that cannot go is kept and tried again, unless a newer one is fetched into its place. */
static void send_what_is_due(void)
{
    uint32_t due;
    myrkosti_due(table, sizeof table, &due);
    for (uint32_t port = 1; port <= CHIP_PORTS; port++) {
        if ((due & bit(port)) != 0 && myrkosti_fetch(table, sizeof table, port, unsent[port], MYRKOSTI_FRAME, &counters[port]) == MYRKOSTI_DONE)
            waiting |= bit(port);
        if ((waiting & bit(port)) != 0 && chip_send(port, unsent[port]))
            waiting &= ~bit(port);
    }
}

/* Our end or the other has been out of Synchronization for a minute. */
static bool churns(const uint8_t *record)
{
    return record[MYRKOSTI_AT_ACTOR_CHURN] == MYRKOSTI_CHURN || record[MYRKOSTI_AT_PARTNER_CHURN] == MYRKOSTI_CHURN;
}

/* Of these ports alone: every report looks over the whole table. */
static void tell_why(uint32_t ports)
{
    for (uint32_t port = 1; port <= CHIP_PORTS; port++) {
        uint32_t cause, holder, ticks;
        if ((ports & bit(port)) != 0 && myrkosti_why(table, sizeof table, port, &cause, &holder, &ticks) == MYRKOSTI_DONE)
            chip_why(port, cause, holder, ticks);
    }
}

/* Step 5, once a turn. First what the LACPDUs will say, then the LACPDUs, then what the neighbours allow. */
static void program_and_send(void)
{
    uint32_t collect = 0, carry = 0, unsettled = 0, distribute[CHIP_PORTS + 1];
    for (uint32_t i = 1; i <= CHIP_PORTS; i++) {
        uint8_t record[MYRKOSTI_RECORD];
        uint32_t holding, attached, count, lowest;
        myrkosti_port(table, sizeof table, i, record, sizeof record);
        if ((record[MYRKOSTI_AT_ACTOR_STATE] & MYRKOSTI_COLLECTING) != 0)
            collect |= bit(i);
        if (churns(record))
            unsettled |= bit(i);
        myrkosti_aggregator(table, sizeof table, i, &holding, &attached, &distribute[i], &count, &lowest);
        carry |= distribute[i];
    }
    chip_collect(collecting | collect);
    for (uint32_t trunk = 1; trunk <= CHIP_PORTS; trunk++)
        chip_distribute(trunk, distributing[trunk] & distribute[trunk]);
    send_what_is_due();
    for (uint32_t trunk = 1; trunk <= CHIP_PORTS; trunk++)
        chip_distribute(trunk, distributing[trunk] = distribute[trunk]);
    chip_collect(collecting = collect);
    chip_unsettled(unsettled);
    tell_why((carried ^ carry) | (unsettled & ~churned)); /* those that begin or stop to carry, and those that begin to churn */
    carried = carry;
    churned = unsettled;
}

/* A Marker behind the last frame of the conversations that are to leave a port. One that cannot be sent times out. */
static void ask(uint32_t port)
{
    uint8_t marker[MYRKOSTI_FRAME];
    const uint32_t answer = myrkosti_ask(table, sizeof table, port, MARKER_WAIT, marker, sizeof marker);
    if (answer == MYRKOSTI_DONE) {
        chip_send(port, marker);
        draining |= bit(port);
        pauses[port] = MARKER_PAUSE;
    } else if (answer == MYRKOSTI_NOT_DISTRIBUTING) {
        chip_may_move(port, false); /* it carries nothing any more */
    }
}

/* What came of it. */
static void read_outcome(uint32_t port)
{
    uint8_t record[MYRKOSTI_RECORD];
    myrkosti_port(table, sizeof table, port, record, sizeof record);
    if (record[MYRKOSTI_AT_MARKER] != MYRKOSTI_MARKER_AWAITING) {
        draining &= ~bit(port);
        chip_may_move(port, record[MYRKOSTI_AT_MARKER] == MYRKOSTI_MARKER_ANSWERED);
    }
}

static void drain(void)
{
    const uint32_t leaving = chip_leaving();
    for (uint32_t port = 1; port <= CHIP_PORTS; port++) {
        if ((draining & bit(port)) != 0)
            read_outcome(port);
        else if ((leaving & bit(port)) != 0 && pauses[port] == 0)
            ask(port);
    }
}

static void show_pages(void)
{
    for (uint32_t port = 1; port <= CHIP_PORTS; port++)
        chip_page(port, &counters[port]);
}

/* So that every neighbour stops at once: another key, one for each port. */
static void leave(void)
{
    for (uint32_t port = 1; port <= CHIP_PORTS; port++)
        set(port, (uint16_t)(0xff00 + port));
    program_and_send();
}

int main(void)
{
    if (!begin())
        return 1;
    while (chip_wait()) {
        if (chip_tick_due())
            tick();
        tell_links();
        hear();
        program_and_send();
        drain();
        show_pages();
    }
    leave();
    return 0;
}
