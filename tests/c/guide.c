/*
 * What docs/GUIDE-FIRMWARE.md says of the choices of a driver, and docs/GUIDE-SUPPORT.md of links that never settle, of counters and of Markers, each shown
 * by a run: two switches A and B, whose ports are joined, port i to port i. Prints one line for each check that fails, and how many passed.
 */
#define _DEFAULT_SOURCE

#include "myrkosti.h"

#include "any.h"
#include "check.h"
#include "neighbour.h"

#include <signal.h>
#include <stdatomic.h>
#include <stdlib.h>
#include <string.h>
#include <sys/mman.h>
#include <sys/wait.h>
#include <unistd.h>

enum { PORTS = 4, SIZE = MYRKOSTI_TABLE(PORTS) };

static uint8_t A[SIZE], B[SIZE];

/* ---- two switches ---- */

static const uint8_t NAMES[2][6] = {{2, 0, 0, 0, 0, 0xa}, {2, 0, 0, 0, 0, 0xb}};

/* the counters of each port of A and of B, or of each switch one record for all its ports */
static struct myrkosti_counters PAGES[2][PORTS + 1];
static bool one_for_all;

static struct myrkosti_counters *page(const uint8_t *table, uint32_t port)
{
    return &PAGES[table == B][one_for_all ? 0 : port];
}

static struct myrkosti_system named(const uint8_t *table)
{
    return myrkosti_usual_system(NAMES[table == B]);
}

static struct myrkosti_port_settings settings_of(const uint8_t *table, uint32_t port)
{
    uint8_t address[6];
    memcpy(address, NAMES[table == B], 6);
    address[4] = (uint8_t)port;
    return myrkosti_usual_settings(address, 1);
}

/* every port with the usual settings, but for the timeout, and a new page */
static void begin(uint8_t *table, bool timeout)
{
    const struct myrkosti_system system = named(table);
    struct myrkosti_port_settings settings = settings_of(table, 0);
    memset(PAGES[table == B], 0, sizeof PAGES[0]);
    IS(myrkosti_start_with(table, SIZE, PORTS, &system, &settings), MYRKOSTI_DONE);
    for (uint32_t port = 1; port <= PORTS; port++) {
        settings = settings_of(table, port);
        settings.timeout = timeout;
        IS(myrkosti_settings_with(table, SIZE, port, &settings), MYRKOSTI_DONE);
    }
}

static void set_key(uint8_t *table, uint32_t port, uint16_t key)
{
    struct myrkosti_port_settings settings = settings_of(table, port);
    settings.key = key;
    IS(myrkosti_settings_with(table, SIZE, port, &settings), MYRKOSTI_DONE);
}

static uint8_t field(const uint8_t *table, uint32_t port, unsigned at)
{
    uint8_t record[MYRKOSTI_RECORD];
    IS(myrkosti_port(table, SIZE, port, record, sizeof record), MYRKOSTI_DONE);
    return record[at];
}

static uint32_t aggregator_of(const uint8_t *table, uint32_t port)
{
    return field(table, port, MYRKOSTI_AT_AGGREGATOR);
}

/* the ports that distribute, in whichever trunk */
static uint32_t carrying(const uint8_t *table)
{
    uint32_t all = 0;
    for (uint32_t k = 1; k <= PORTS; k++) {
        uint32_t holding, attached, distributing, count, lowest;
        IS(myrkosti_aggregator(table, SIZE, k, &holding, &attached, &distributing, &count, &lowest), MYRKOSTI_DONE);
        all |= distributing;
    }
    return all;
}

static uint32_t line(uint8_t *table, uint32_t port, bool up)
{
    return myrkosti_line(table, SIZE, port, up, true);
}

static void plug(uint32_t port)
{
    IS(line(A, port, true), MYRKOSTI_DONE);
    IS(line(B, port, true), MYRKOSTI_DONE);
}

static void deliver(uint8_t *to, uint32_t port, const uint8_t frame[MYRKOSTI_FRAME])
{
    uint8_t out[MYRKOSTI_FRAME];
    uint32_t sent;
    IS(myrkosti_receive(to, SIZE, port, frame, MYRKOSTI_FRAME, out, sizeof out, &sent, page(to, port)), MYRKOSTI_DONE);
}

static uint32_t due(const uint8_t *table)
{
    uint32_t ports;
    IS(myrkosti_due(table, SIZE, &ports), MYRKOSTI_DONE);
    return ports;
}

/* what is due at one end reaches the other */
static void say(uint8_t *from, uint8_t *to)
{
    uint8_t frame[MYRKOSTI_FRAME];
    const uint32_t ports = due(from);
    for (uint32_t port = 1; port <= PORTS; port++) {
        if ((ports >> (port - 1) & 1) != 0) {
            IS(myrkosti_fetch(from, SIZE, port, frame, sizeof frame, page(from, port)), MYRKOSTI_DONE);
            deliver(to, port, frame);
        }
    }
}

/* nobody hears it */
static void say_in_vain(uint8_t *from)
{
    uint8_t frame[MYRKOSTI_FRAME];
    for (uint32_t port = 1; port <= PORTS; port++)
        myrkosti_fetch(from, SIZE, port, frame, sizeof frame, page(from, port));
}

/* until neither has anything to say */
static void talk(void)
{
    while ((due(A) | due(B)) != 0) {
        say(A, B);
        say(B, A);
    }
}

static void tick(uint8_t *table)
{
    IS(myrkosti_tick(table, SIZE), MYRKOSTI_DONE);
}

static void pass(int ticks)
{
    while (ticks-- > 0) {
        tick(A);
        tick(B);
        talk();
    }
}

/* both ends carry on ports 1 and 2, at a short timeout */
static void trunk_of_two(void)
{
    begin(A, true);
    begin(B, true);
    plug(1);
    plug(2);
    talk();
    pass(40);
    IS(carrying(A), 3);
    IS(carrying(B), 3);
}

/* ---- a frame that could not be sent ---- */

/* The ticks until both ends of port 1 carry, at long timeouts, where A's LACPDU of tick 20 does not go out before tick 26: it is kept, or lost. */
static int ticks_with_a_failed_send(bool keep)
{
    uint8_t frame[MYRKOSTI_FRAME];
    bool kept = false;
    begin(A, false);
    begin(B, false);
    plug(1);
    talk();
    for (int ticks = 1; ticks < 1000; ticks++) {
        tick(A);
        tick(B);
        say(B, A);
        if (due(A) != 0) {
            IS(myrkosti_fetch(A, SIZE, 1, frame, sizeof frame, page(A, 1)), MYRKOSTI_DONE); /* a newer one takes the place of the one kept */
            kept = ticks >= 20 && ticks < 26;
            if (!kept)
                deliver(B, 1, frame);
        }
        if (kept && keep && ticks >= 26) {
            deliver(B, 1, frame);
            kept = false;
        }
        say(B, A);
        if (carrying(A) == 1 && carrying(B) == 1)
            return ticks;
    }
    return -1;
}

static void keep_what_could_not_be_sent(void)
{
    IS(ticks_with_a_failed_send(true), 26);
    IS(page(A, 1)->lacpdus_sent, page(B, 1)->lacpdus_received);
    IS(ticks_with_a_failed_send(false), 300);
    IS(page(A, 1)->lacpdus_sent, page(B, 1)->lacpdus_received + 1); /* it was fetched, and so counted */
}

/* ---- many frames, then the chip and the sends once ---- */

/* the ticks until both ends carry on all four ports, where sends are fetched after each call, or once when all has been told */
static int ticks_to_a_trunk(bool each)
{
    begin(A, true);
    begin(B, true);
    for (uint32_t port = 1; port <= PORTS; port++) {
        plug(port);
        if (each)
            talk();
    }
    talk();
    for (int ticks = 1; ticks < 100; ticks++) {
        tick(A);
        if (each)
            talk();
        tick(B);
        talk();
        if (carrying(A) == 15 && carrying(B) == 15)
            return ticks;
    }
    return -1;
}

/* a call on A that is no tick and no start: mostly a frame, of one of two neighbours with one of two keys, which says this or that */
static void any_call(void)
{
    static const uint8_t STATES[6] = {0x3f, 0x3f, 0x1f, 0x0f, 0x07, 0x3b};
    const uint32_t port = 1 + any(PORTS), kind = any(400);
    if (kind == 0) {
        IS(line(A, port, any(4) != 0), MYRKOSTI_DONE);
    } else if (kind == 1) {
        set_key(A, port, (uint16_t)(1 + any(8) / 7));
    } else {
        uint8_t frame[MYRKOSTI_FRAME], theirs[MYRKOSTI_BLOCK] = {0}, ours[MYRKOSTI_BLOCK], record[MYRKOSTI_RECORD], out[MYRKOSTI_FRAME];
        const struct myrkosti_system system = named(A);
        uint32_t sent;
        theirs[MYRKOSTI_BLOCK_SYSTEM + 5] = any(500) == 0 ? 1 : 2;
        theirs[MYRKOSTI_BLOCK_KEY + 1] = any(500) == 0 ? 1 : 2;
        theirs[MYRKOSTI_BLOCK_PORT + 1] = (uint8_t)port;
        theirs[MYRKOSTI_BLOCK_STATE] = STATES[any(sizeof STATES)];
        IS(myrkosti_port(A, SIZE, port, record, sizeof record), MYRKOSTI_DONE);
        put_ours(ours, &system, (uint16_t)port, record);
        put_lacpdu(frame, theirs, ours);
        const uint32_t answer = myrkosti_receive(A, SIZE, port, frame, sizeof frame, out, sizeof out, &sent, page(A, port));
        IS(answer == MYRKOSTI_DONE || answer == MYRKOSTI_LACP_OFF, true);
    }
}

/*
 * Between two looks at the table a port may leave its trunk, stop and go on, or begin to carry; but with fewer than twenty ticks between them, one that
 * carries at both was in one trunk all along. With more it may have moved.
 */
static void hand_over_in_batches(void)
{
    unsigned stayed = 0, left = 0, came = 0, paused = 0, moved_unseen = 0;
    IS(ticks_to_a_trunk(true), 20);
    IS(ticks_to_a_trunk(false), 20);
    begin(A, true);
    for (uint32_t port = 1; port <= PORTS; port++)
        IS(line(A, port, true), MYRKOSTI_DONE);
    for (int looks = 0; looks < 20000; looks++) {
        const uint32_t before = carrying(A);
        uint32_t always = before, was[PORTS + 1], ticks = any(2) == 0 ? 1 : any(30);
        const bool few = ticks < 20;
        for (uint32_t port = 1; port <= PORTS; port++)
            was[port] = aggregator_of(A, port);
        for (uint32_t calls = ticks + any(8); calls > 0; calls--) {
            if (any(calls) < ticks) {
                tick(A);
                ticks--;
            } else {
                any_call();
            }
            always &= carrying(A);
        }
        const uint32_t after = carrying(A);
        for (uint32_t port = 1; port <= PORTS; port++) {
            const uint32_t bit = 1u << (port - 1);
            const bool same = aggregator_of(A, port) == was[port];
            if ((before & after & bit) != 0) {
                check(same || !few, "a port that carries was in one trunk");
                stayed += (always & bit) != 0;
                paused += (always & bit) == 0 && same;
                moved_unseen += !same;
            }
            left += (before & ~after & bit) != 0;
            came += (after & ~before & bit) != 0;
        }
    }
    check(stayed > 1000 && left > 1000 && came > 1000 && paused > 100 && moved_unseen > 10, "ports stayed, left, came, paused and moved");
}

/* ---- a VLAN tag ---- */

/* an LACPDU with a tag is none: with its tag it is told apart, without it nobody could */
static void leave_the_tag_on(void)
{
    uint8_t frame[MYRKOSTI_FRAME], tagged[MYRKOSTI_FRAME + 4], out[MYRKOSTI_FRAME];
    static const uint8_t TAG[4] = {0x81, 0x00, 0x00, 0x05};
    uint32_t sent;
    begin(A, true);
    begin(B, true);
    plug(1);
    IS(myrkosti_fetch(B, SIZE, 1, frame, sizeof frame, page(B, 1)), MYRKOSTI_DONE);
    memcpy(tagged, frame, TYPE_AT);
    memcpy(tagged + TYPE_AT, TAG, sizeof TAG);
    memcpy(tagged + TYPE_AT + sizeof TAG, frame + TYPE_AT, sizeof frame - TYPE_AT);
    IS(myrkosti_receive(A, SIZE, 1, tagged, sizeof tagged, out, sizeof out, &sent, page(A, 1)), MYRKOSTI_UNKNOWN);
    IS(page(A, 1)->unknown_received, 1);
    IS(page(A, 1)->lacpdus_received, 0);
    IS(field(A, 1, MYRKOSTI_AT_RECEIVE), MYRKOSTI_RECEIVE_EXPIRED);
    IS(myrkosti_receive(A, SIZE, 1, frame, sizeof frame, out, sizeof out, &sent, page(A, 1)), MYRKOSTI_DONE);
    IS(field(A, 1, MYRKOSTI_AT_RECEIVE), MYRKOSTI_RECEIVE_CURRENT);
}

/* ---- what to start with ---- */

/* port 1 of A alone with this state in its default block, for a minute without a word from anyone */
static void nobody_there(uint8_t assumed)
{
    struct myrkosti_port_settings settings = settings_of(A, 1);
    begin(A, true);
    settings.partner[MYRKOSTI_BLOCK_STATE] = assumed;
    IS(myrkosti_settings_with(A, SIZE, 1, &settings), MYRKOSTI_DONE);
    IS(line(A, 1, true), MYRKOSTI_DONE);
    for (int ticks = 0; ticks < 600; ticks++)
        tick(A);
    IS(field(A, 1, MYRKOSTI_AT_RECEIVE), MYRKOSTI_RECEIVE_DEFAULTED);
}

static void start_values(void)
{
    /* the usual default block: without LACP at the other end the port carries nothing, and speaks every second */
    nobody_there(0x02);
    IS(carrying(A), 0);
    IS(field(A, 1, MYRKOSTI_AT_PARTNER_CHURN), MYRKOSTI_CHURN);
    IS(field(A, 1, MYRKOSTI_AT_MUX), MYRKOSTI_MUX_ATTACHED);
    IS(field(A, 1, MYRKOSTI_AT_PERIODIC), MYRKOSTI_PERIODIC_FAST);
    /* a block of zeros: it speaks every 30 seconds, which is how long a recovery then takes */
    nobody_there(0x00);
    IS(field(A, 1, MYRKOSTI_AT_PERIODIC), MYRKOSTI_PERIODIC_SLOW);
    /* in sync and collecting: it carries on the administrator's word alone */
    nobody_there(0x1a);
    IS(carrying(A), 1);
    IS(field(A, 1, MYRKOSTI_AT_PARTNER_CHURN), MYRKOSTI_NO_CHURN);
    /* another key for another data rate: never in one trunk, though the neighbour is one */
    begin(A, true);
    begin(B, true);
    set_key(A, 2, 2);
    plug(1);
    plug(2);
    talk();
    pass(60);
    IS(carrying(A), 3);
    IS(aggregator_of(A, 1), 1);
    IS(aggregator_of(A, 2), 2);
}

/* ---- duplex ---- */

/* told half duplex for want of knowledge, a port never speaks; told full, it does within a second */
static void unknown_duplex(void)
{
    begin(A, true);
    IS(myrkosti_line(A, SIZE, 1, true, false), MYRKOSTI_DONE);
    for (int ticks = 0; ticks < 100; ticks++) {
        IS(due(A), 0);
        tick(A);
    }
    IS(myrkosti_line(A, SIZE, 1, true, true), MYRKOSTI_DONE);
    for (int ticks = 0; ticks < 10; ticks++)
        tick(A);
    IS(due(A), 1);
}

/* ---- ports that come and go ---- */

/* a table for four, of which two are there: they are a trunk, the others stand by themselves; one that comes joins, one that goes leaves */
static void come_and_go(void)
{
    trunk_of_two();
    IS(aggregator_of(A, 3), 3);
    IS(aggregator_of(A, 4), 4);
    plug(3);
    talk();
    pass(20);
    IS(carrying(A), 7);
    IS(aggregator_of(A, 3), 1);
    IS(line(A, 3, false), MYRKOSTI_DONE);
    IS(line(B, 3, false), MYRKOSTI_DONE);
    talk();
    IS(carrying(A), 3);
}

/* ---- late ticks, and a machine that slept ---- */

/* A sleeps for five seconds, as B sees it: B has stopped sending to A, and A does not know */
static void fall_asleep(void)
{
    trunk_of_two();
    for (int ticks = 0; ticks < 50; ticks++) {
        tick(B);
        say_in_vain(B);
    }
    IS(carrying(B), 0);
    IS(carrying(A), 3);
}

static void wake_up(void)
{
    fall_asleep();
    for (uint32_t port = 1; port <= 2; port++) {
        IS(line(A, port, false), MYRKOSTI_DONE);
        IS(line(A, port, true), MYRKOSTI_DONE);
    }
    IS(carrying(A), 0); /* nothing goes where nobody listens */
    talk();
    pass(1);
    IS(carrying(A), 3); /* and both carry as soon as they have spoken */
    IS(carrying(B), 3);
}

/* one tick late by a second shifts every timer by a second and does nothing else: the trunk stands */
static void late_tick(void)
{
    trunk_of_two();
    for (int ticks = 0; ticks < 10; ticks++) {
        tick(B);
        say(B, A);
        say(A, B);
    }
    tick(A);
    talk();
    IS(carrying(A), 3);
    IS(carrying(B), 3);
}

/* ---- which trunk it is ---- */

/* the aggregator that carries for this key, by the most ports if there are two; 0 if none does */
static uint32_t trunk_of(const uint8_t *table, uint32_t ports, uint16_t key)
{
    uint32_t trunk = 0, most = 0;
    for (uint32_t k = 1; k <= ports; k++) {
        uint32_t holding, attached, distributing, count, lowest;
        uint8_t record[MYRKOSTI_RECORD];
        myrkosti_aggregator(table, SIZE, k, &holding, &attached, &distributing, &count, &lowest);
        myrkosti_port(table, SIZE, lowest, record, sizeof record); /* zeros where lowest is 0 */
        if (count > most && myrkosti_number(record + MYRKOSTI_AT_KEY) == key) {
            trunk = k;
            most = count;
        }
    }
    return trunk;
}

static void number_of_a_trunk(void)
{
    trunk_of_two();
    IS(trunk_of(A, PORTS, 1), 1);
    set_key(A, 1, 2); /* the lowest port leaves: the trunk has another number when it is back */
    talk();
    IS(trunk_of(A, PORTS, 1), 0);
    pass(40);
    IS(trunk_of(A, PORTS, 1), 2);
    IS(trunk_of(A, PORTS, 2), 1);
    IS(trunk_of(A, PORTS, 3), 0);
}

/* ---- links that never settle ---- */

enum { MINUTE = 600 };

static uint8_t partner_state(const uint8_t *table, uint32_t port)
{
    return field(table, port, MYRKOSTI_AT_PARTNER + MYRKOSTI_BLOCK_STATE);
}

/* whether our end churns, and the other; a port that churns carries nothing */
static void churns(const uint8_t *table, uint32_t port, bool actor, bool partner)
{
    IS(field(table, port, MYRKOSTI_AT_ACTOR_CHURN) == MYRKOSTI_CHURN, actor);
    IS(field(table, port, MYRKOSTI_AT_PARTNER_CHURN) == MYRKOSTI_CHURN, partner);
    check(!(actor || partner) || (carrying(table) >> (port - 1) & 1) == 0, "a port that churns carries nothing");
}

/* on a port of A: a port of the neighbour whose address ends so says this state of itself, and heard us or somebody else */
static void hear_from(uint32_t port, uint8_t system, uint8_t far_port, uint8_t says, bool heard_us)
{
    const struct myrkosti_system here = named(A);
    uint8_t frame[MYRKOSTI_FRAME], theirs[MYRKOSTI_BLOCK] = {0}, ours[MYRKOSTI_BLOCK], record[MYRKOSTI_RECORD];
    IS(myrkosti_port(A, SIZE, port, record, sizeof record), MYRKOSTI_DONE);
    put_ours(ours, &here, (uint16_t)(heard_us ? port : 99), record);
    theirs[MYRKOSTI_BLOCK_SYSTEM + 5] = system;
    theirs[MYRKOSTI_BLOCK_KEY + 1] = 1;
    theirs[MYRKOSTI_BLOCK_PORT + 1] = far_port;
    theirs[MYRKOSTI_BLOCK_STATE] = says;
    put_lacpdu(frame, theirs, ours);
    deliver(A, port, frame);
}

/* B never hears A: at A the partner's end churns after a minute, and B says of itself that it hears nobody; at B it is the same end, and B knows of nobody */
static void neighbour_does_not_hear_us(void)
{
    begin(A, true);
    begin(B, true);
    plug(1);
    for (int ticks = 0; ticks < MINUTE; ticks++) {
        churns(A, 1, false, false);
        churns(B, 1, false, false);
        tick(A);
        tick(B);
        say(B, A);
    }
    churns(A, 1, false, true);
    churns(B, 1, false, true);
    IS(field(A, 1, MYRKOSTI_AT_RECEIVE), MYRKOSTI_RECEIVE_CURRENT);
    IS(field(A, 1, MYRKOSTI_AT_ACTOR_STATE) & MYRKOSTI_DEFAULTED, 0);
    IS(partner_state(A, 1) & (MYRKOSTI_DEFAULTED | MYRKOSTI_SYNCHRONIZATION), MYRKOSTI_DEFAULTED);
    IS(field(B, 1, MYRKOSTI_AT_ACTOR_STATE) & MYRKOSTI_DEFAULTED, MYRKOSTI_DEFAULTED);
    say(A, B); /* the cable is mended */
    talk();
    pass(20);
    churns(A, 1, false, false);
    churns(B, 1, false, false);
    IS(carrying(A), 1);
    IS(carrying(B), 1);
}

/* a neighbour that hears us and does not take the link, and one that takes it but for a link to somebody else: the partner's end, and it hears someone */
static void neighbour_keeps_the_link_out(void)
{
    for (int crossed = 0; crossed < 2; crossed++) {
        begin(A, true);
        IS(line(A, 1, true), MYRKOSTI_DONE);
        for (int ticks = 0; ticks < MINUTE; ticks++) {
            churns(A, 1, false, false);
            if (ticks % 10 == 0)
                hear_from(1, 7, 1, crossed == 1 ? 0x3f : 0x07, crossed == 0);
            tick(A);
        }
        churns(A, 1, false, true);
        IS(field(A, 1, MYRKOSTI_AT_MUX), MYRKOSTI_MUX_ATTACHED);
        IS(partner_state(A, 1) & (MYRKOSTI_DEFAULTED | MYRKOSTI_EXPIRED | MYRKOSTI_SYNCHRONIZATION), 0);
        IS(field(A, 1, MYRKOSTI_AT_PARTNER + MYRKOSTI_BLOCK_SYSTEM + 5), 7);
    }
}

/* two neighbours behind one cable, each of which is in order by itself: our own port is selected anew every half second, and never attaches */
static void two_neighbours_behind_one_cable(void)
{
    begin(A, true);
    IS(line(A, 1, true), MYRKOSTI_DONE);
    for (int ticks = 0; ticks < MINUTE; ticks++) {
        churns(A, 1, false, false);
        if (ticks % 5 == 0)
            hear_from(1, ticks % 10 == 0 ? 7 : 8, 1, 0x3f, true);
        tick(A);
    }
    churns(A, 1, true, false);
    IS(field(A, 1, MYRKOSTI_AT_MUX), MYRKOSTI_MUX_WAITING);
    IS(page(A, 1)->lacpdus_received, 2 * 60); /* one a second from each */
}

/* two ports of one neighbour behind the cable of port 1: it waits again and again, and port 2 of the same aggregator, where all is well, with it */
static void held_back_by_another(void)
{
    begin(A, true);
    IS(line(A, 1, true), MYRKOSTI_DONE);
    IS(line(A, 2, true), MYRKOSTI_DONE);
    for (int ticks = 0; ticks < MINUTE; ticks++) {
        if (ticks % 5 == 0)
            hear_from(1, 7, ticks % 10 == 0 ? 1 : 3, 0x3f, true);
        if (ticks % 10 == 0)
            hear_from(2, 7, 2, 0x3f, true);
        tick(A);
    }
    churns(A, 1, true, false);
    churns(A, 2, true, false);
    IS(aggregator_of(A, 2), aggregator_of(A, 1));
    IS(field(A, 2, MYRKOSTI_AT_WAIT_TIMER), 0);
}

/* a link that falls every half minute has no minute in which to settle: it never churns */
static void flapping_link(void)
{
    begin(A, true);
    for (int ticks = 0; ticks < 3 * MINUTE; ticks++) {
        if (ticks % 300 == 0) {
            IS(line(A, 1, false), MYRKOSTI_DONE);
            IS(line(A, 1, true), MYRKOSTI_DONE);
        }
        tick(A);
        churns(A, 1, false, false);
    }
    IS(field(A, 1, MYRKOSTI_AT_PARTNER_CHURN), MYRKOSTI_CHURN_MONITOR);
}

/* a partner in sync that never collects: the link carries nothing, and nobody churns */
static void collects_never(void)
{
    begin(A, true);
    IS(line(A, 1, true), MYRKOSTI_DONE);
    for (int ticks = 0; ticks < 2 * MINUTE; ticks++) {
        if (ticks % 10 == 0)
            hear_from(1, 7, 1, 0x0f, true);
        tick(A);
        churns(A, 1, false, false);
    }
    IS(field(A, 1, MYRKOSTI_AT_MUX), MYRKOSTI_MUX_COLLECTING);
    IS(carrying(A), 0);
}

/* ---- what the counters tell ---- */

/* a Marker (type 1), a Response (2) or none of them, with this subtype in its place, comes to port 1 of A; a Marker that is taken is answered */
static void hear_frame(uint8_t subtype, uint8_t type, uint32_t answer)
{
    uint8_t frame[MYRKOSTI_FRAME], out[MYRKOSTI_FRAME];
    uint32_t sent;
    put_marker(frame, type);
    frame[SUBTYPE_AT] = subtype;
    IS(myrkosti_receive(A, SIZE, 1, frame, sizeof frame, out, sizeof out, &sent, page(A, 1)), answer);
    IS(sent, subtype == 2 && type == 1 && answer == MYRKOSTI_DONE ? MYRKOSTI_FRAME : 0);
}

/* a minute of a link, from when it has settled: how many LACPDUs came to A, which are as many as went from it */
static uint32_t lacpdus_a_minute(bool timeout)
{
    begin(A, timeout);
    begin(B, timeout);
    plug(1);
    talk();
    pass(100);
    const struct myrkosti_counters before = *page(A, 1);
    pass(MINUTE);
    const uint32_t came = page(A, 1)->lacpdus_received - before.lacpdus_received;
    IS(page(A, 1)->lacpdus_sent - before.lacpdus_sent, came);
    return came;
}

static void pace(void)
{
    IS(lacpdus_a_minute(true), 60);
    IS(lacpdus_a_minute(false), 2);
}

/* both pass so many ticks, and what A says gets lost on the way */
static void pass_unheard(int ticks)
{
    while (ticks-- > 0) {
        tick(A);
        tick(B);
        say_in_vain(A);
        say(B, A);
    }
}

/* what B hears stands still, and A hears on; to each of B's, which says that it hears nobody, A sends one more than its own of every second */
static void lost_in_one_direction(void)
{
    trunk_of_two();
    pass_unheard(100);
    const struct myrkosti_counters at_a = *page(A, 1), at_b = *page(B, 1);
    pass_unheard(MINUTE);
    IS(page(A, 1)->lacpdus_received - at_a.lacpdus_received, 60);
    IS(page(A, 1)->lacpdus_sent - at_a.lacpdus_sent, 120);
    IS(page(B, 1)->lacpdus_sent - at_b.lacpdus_sent, 60);
    IS(page(B, 1)->lacpdus_received, at_b.lacpdus_received);
}

/* at half duplex the neighbour's LACPDUs are counted and not heard, and none goes out */
static void counted_at_half_duplex(void)
{
    begin(A, true);
    begin(B, true);
    plug(1);
    IS(myrkosti_line(A, SIZE, 1, true, false), MYRKOSTI_DONE);
    for (int ticks = 0; ticks < 100; ticks++) {
        uint8_t frame[MYRKOSTI_FRAME], out[MYRKOSTI_FRAME];
        uint32_t sent;
        tick(A);
        tick(B);
        IS(due(A), 0);
        if (myrkosti_fetch(B, SIZE, 1, frame, sizeof frame, page(B, 1)) == MYRKOSTI_DONE)
            IS(myrkosti_receive(A, SIZE, 1, frame, sizeof frame, out, sizeof out, &sent, page(A, 1)), MYRKOSTI_LACP_OFF);
    }
    check(page(A, 1)->lacpdus_received >= 10, "LACPDUs came");
    IS(page(A, 1)->lacpdus_received, page(B, 1)->lacpdus_sent);
    IS(page(A, 1)->lacpdus_sent, 0);
    IS(field(A, 1, MYRKOSTI_AT_ACTOR_STATE) & MYRKOSTI_DEFAULTED, MYRKOSTI_DEFAULTED);
}

/* Markers are answered where the port collects; before that they are counted and nothing is sent */
static void markers_unanswered(void)
{
    begin(A, true);
    IS(line(A, 1, true), MYRKOSTI_DONE);
    hear_frame(2, 1, MYRKOSTI_NOT_COLLECTING);
    IS(page(A, 1)->markers_received, 1);
    IS(page(A, 1)->marker_responses_sent, 0);
    trunk_of_two();
    hear_frame(2, 1, MYRKOSTI_DONE);
    IS(page(A, 1)->markers_received, 1);
    IS(page(A, 1)->marker_responses_sent, 1);
    hear_frame(2, 2, MYRKOSTI_RESPONSE);
    IS(page(A, 1)->marker_responses_received, 1);
}

/* OAM (subtype 3) is unknown here; subtypes that nobody has, and Markers of another type, are illegal; the trunk stands through any number of either */
static void other_senders(void)
{
    trunk_of_two();
    for (int frames = 0; frames < 100; frames++) {
        hear_frame(3, 1, MYRKOSTI_UNKNOWN);
        hear_frame(11, 1, MYRKOSTI_ILLEGAL);
        hear_frame(2, 9, MYRKOSTI_ILLEGAL);
    }
    IS(page(A, 1)->unknown_received, 100);
    IS(page(A, 1)->illegal_received, 200);
    pass(60);
    IS(carrying(A), 3);
}

/* ---- how counters are kept ---- */

/* what a driver publishes of a counter: how much it rose between two readings, in 32 bits, so that it may have passed 0 */
static uint32_t rise(uint32_t before, uint32_t now)
{
    return now - before;
}

static void publish_differences(void)
{
    uint64_t published = 0;
    trunk_of_two();
    page(A, 1)->lacpdus_received = 4294967295u - 15;
    for (int readings = 0; readings < 10; readings++) {
        const uint32_t before = page(A, 1)->lacpdus_received;
        pass(100);
        published += rise(before, page(A, 1)->lacpdus_received);
    }
    IS(published, 100);
    check(page(A, 1)->lacpdus_received < 100, "it passed 0");
}

/* a start of the table and moves of it leave the pages as they are */
static void pages_outlive(void)
{
    uint8_t old[MYRKOSTI_OLD_TABLE(PORTS)];
    const struct myrkosti_system system = named(A);
    const struct myrkosti_port_settings settings = settings_of(A, 1);
    struct myrkosti_counters before[PORTS + 1];
    trunk_of_two();
    memcpy(before, PAGES[0], sizeof before);
    IS(myrkosti_back(A, SIZE, old, sizeof old), MYRKOSTI_DONE);
    IS(myrkosti_forward(old, sizeof old, A, SIZE), MYRKOSTI_DONE);
    IS(myrkosti_start_with(A, SIZE, PORTS, &system, &settings), MYRKOSTI_DONE);
    IS(memcmp(PAGES[0], before, sizeof before), 0);
    check(before[1].lacpdus_received > 0 && before[2].lacpdus_sent > 0, "something was counted");
}

/* a driver without port pages lends one record for all ports: its tables are the same */
static void no_pages(void)
{
    uint8_t tables[2][SIZE];
    trunk_of_two();
    memcpy(tables[0], A, SIZE);
    memcpy(tables[1], B, SIZE);
    one_for_all = true;
    trunk_of_two();
    IS(memcmp(tables[0], A, SIZE), 0);
    IS(memcmp(tables[1], B, SIZE), 0);
    one_for_all = false;
}

/* ---- a conversation moves to another link ---- */

enum { SLOW_LINK = 1, QUICK_LINK = 2, MOST_UNDER_WAY = 64 };

/* ticks that a frame is under way on a link, either way; on the first, frames wait in a queue */
static const int UNDER_WAY[PORTS + 1] = {0, 8, 1};

/* frames of a conversation are numbered; a Marker or its Response is a frame of the library's */
struct parcel {
    int arrives;
    uint32_t port;
    bool ours; /* from A to B */
    int number;
    uint8_t frame[MYRKOSTI_FRAME];
};

static struct parcel parcels[MOST_UNDER_WAY];
static size_t under_way;
static int now, last_number;
static bool in_order;

static void post(uint32_t port, bool ours, int number, const uint8_t *frame)
{
    struct parcel *parcel = &parcels[under_way++];
    *parcel = (struct parcel){.arrives = now + UNDER_WAY[port], .port = port, .ours = ours, .number = number};
    if (frame != NULL)
        memcpy(parcel->frame, frame, MYRKOSTI_FRAME);
}

/* a frame of the conversation arrives, or a Marker, which B answers, or a Response, which A is handed */
static void arrive(const struct parcel *parcel)
{
    uint8_t out[MYRKOSTI_FRAME];
    uint32_t sent;
    uint8_t *const to = parcel->ours ? B : A;
    if (parcel->number != 0) {
        in_order &= parcel->number > last_number;
        last_number = parcel->number;
        return;
    }
    myrkosti_receive(to, SIZE, parcel->port, parcel->frame, MYRKOSTI_FRAME, out, sizeof out, &sent, page(to, parcel->port));
    if (sent != 0)
        post(parcel->port, false, 0, out);
}

static void let_arrive(void)
{
    for (size_t i = 0; i < under_way; i++) {
        const struct parcel parcel = parcels[i];
        if (parcel.arrives == now) {
            memmove(&parcels[i], &parcels[i + 1], (--under_way - i) * sizeof parcels[0]);
            i--;
            arrive(&parcel);
        }
    }
}

/* what came of the Marker that was asked for last on a port of A */
static uint8_t outcome(uint32_t port)
{
    return field(A, port, MYRKOSTI_AT_MARKER);
}

/* how a conversation is moved */
struct way {
    uint32_t wait; /* ticks that its Marker is awaited; 0: it is moved without one */
    bool lost;     /* the Marker gets lost on its way */
    int falls;     /* the slow link falls so many ticks after the ask; 0: it does not */
};

static const struct way AT_ONCE = {0, false, 0}, BY_MARKER = {30, false, 0}, LOST_MARKER = {30, true, 0}, LOST_AND_IMPATIENT = {5, true, 0},
                        LINK_FALLS = {30, true, 3};

/* a Marker for the slow link, sent behind the last frame of the conversation */
static void drain(const struct way *way)
{
    uint8_t marker[MYRKOSTI_FRAME];
    IS(myrkosti_ask(A, SIZE, SLOW_LINK, way->wait, marker, sizeof marker), MYRKOSTI_DONE);
    if (!way->lost)
        post(SLOW_LINK, true, 0, marker);
}

/* the links fall silent, and what is under way there is gone */
static void fall(uint32_t port)
{
    IS(line(A, port, false), MYRKOSTI_DONE);
    IS(line(B, port, false), MYRKOSTI_DONE);
    for (size_t i = 0; i < under_way; i++)
        if (parcels[i].port == port)
            parcels[i].arrives = -1;
}

/*
 * A conversation of a frame a tick goes over the slow link, and from tick 20 on is moved to the quick one: its frames are held back until the Marker has
 * ended. The tick at which it goes on there.
 */
static int move_conversation(const struct way *way)
{
    int asked = 20, moved = 0;
    trunk_of_two();
    under_way = 0;
    last_number = 0;
    in_order = true;
    for (now = 1; now <= 100; now++) {
        if (now < asked)
            post(SLOW_LINK, true, now, NULL);
        if (now == asked && way->wait != 0)
            drain(way);
        if (way->falls != 0 && now == asked + way->falls)
            fall(SLOW_LINK);
        let_arrive();
        if (now >= asked && moved == 0 && (way->wait == 0 || outcome(SLOW_LINK) != MYRKOSTI_MARKER_AWAITING))
            moved = now;
        if (moved != 0)
            post(QUICK_LINK, true, now, NULL);
        pass(1);
    }
    return moved;
}

/* moved at once, the conversation overtakes itself; behind a Marker it does not, and goes on as soon as the Response is there */
static void keeps_the_order(void)
{
    IS(move_conversation(&AT_ONCE), 20);
    IS(in_order, false);
    IS(move_conversation(&BY_MARKER), 20 + 8 + 8);
    IS(in_order, true);
    IS(outcome(SLOW_LINK), MYRKOSTI_MARKER_ANSWERED);
}

/* without a Response it goes on when the time is over, in order if that is longer than anything is under way */
static void goes_on_without_a_response(void)
{
    IS(move_conversation(&LOST_MARKER), 20 + 30);
    IS(in_order, true);
    IS(outcome(SLOW_LINK), MYRKOSTI_MARKER_TIMED_OUT);
    IS(move_conversation(&LOST_AND_IMPATIENT), 20 + 5);
    IS(in_order, false);
}

/* the link falls: nothing more arrives from it, and the conversation goes on at once */
static void goes_on_when_the_link_falls(void)
{
    IS(move_conversation(&LINK_FALLS), 20 + 3);
    IS(in_order, true);
    IS(outcome(SLOW_LINK), MYRKOSTI_MARKER_CANCELLED);
}

/* the Marker of a port of A goes to B and is answered at once; the answer to the ask */
static uint32_t ask_and_hear(uint32_t port)
{
    uint8_t marker[MYRKOSTI_FRAME], response[MYRKOSTI_FRAME], out[MYRKOSTI_FRAME];
    uint32_t sent;
    const uint32_t answer = myrkosti_ask(A, SIZE, port, 10, marker, sizeof marker);
    if (answer == MYRKOSTI_DONE) {
        IS(myrkosti_receive(B, SIZE, port, marker, sizeof marker, response, sizeof response, &sent, page(B, port)), MYRKOSTI_DONE);
        IS(myrkosti_receive(A, SIZE, port, response, sizeof response, out, sizeof out, &sent, page(A, port)), MYRKOSTI_DONE);
    }
    return answer;
}

enum { PAUSE = 3, TURNS_A_TICK = 10 };

/* nothing but the asker limits its Markers: a hundred in a tick are answered. With so many ticks between two of a port, six take more than a second */
static void asks_no_more_often(void)
{
    int pause = 0, asked_at[100], asks = 0;
    trunk_of_two();
    for (int i = 0; i < 100; i++)
        IS(ask_and_hear(1), MYRKOSTI_DONE);
    trunk_of_two();
    for (int turn = 0; asks < 100; turn++) {
        if (turn % TURNS_A_TICK == 0) {
            pass(1);
            pause -= pause > 0;
        }
        if (pause == 0 && turn % 7 == 3) { /* at any moment between two ticks */
            IS(ask_and_hear(1), MYRKOSTI_DONE);
            pause = PAUSE;
            asked_at[asks++] = turn;
        }
    }
    for (int i = 5; i < asks; i++)
        check(asked_at[i] - asked_at[i - 5] > 10 * TURNS_A_TICK, "six Markers take more than a second");
}

/* a frame that is kept for later is sent while it is awaited; after its time its Response comes too late, and the next Marker has another number */
static void marker_kept_too_long(void)
{
    uint8_t marker[MYRKOSTI_FRAME], response[MYRKOSTI_FRAME], out[MYRKOSTI_FRAME];
    uint32_t sent;
    trunk_of_two();
    IS(myrkosti_ask(A, SIZE, 1, 5, marker, sizeof marker), MYRKOSTI_DONE);
    IS(myrkosti_ask(A, SIZE, 1, 5, response, sizeof response), MYRKOSTI_ALREADY_AWAITING);
    pass(5);
    IS(myrkosti_receive(B, SIZE, 1, marker, sizeof marker, response, sizeof response, &sent, page(B, 1)), MYRKOSTI_DONE);
    IS(myrkosti_receive(A, SIZE, 1, response, sizeof response, out, sizeof out, &sent, page(A, 1)), MYRKOSTI_RESPONSE);
    IS(outcome(1), MYRKOSTI_MARKER_TIMED_OUT);
    IS(page(A, 1)->marker_responses_received, 1);
    IS(ask_and_hear(1), MYRKOSTI_DONE);
    IS(outcome(1), MYRKOSTI_MARKER_ANSWERED);
    IS(page(A, 1)->marker_responses_received, 2);
    pass(MINUTE);
    IS(outcome(1), MYRKOSTI_MARKER_ANSWERED); /* until the next ask */
}

/* ---- the end, and going on ---- */

/* the ticks after which B has stopped sending to A, which ends with a word or without */
static int ticks_after_the_end(bool politely)
{
    trunk_of_two();
    for (uint32_t port = 1; politely && port <= PORTS; port++)
        set_key(A, port, (uint16_t)(1000 + port));
    if (politely)
        say(A, B);
    for (int ticks = 0; ticks < 100; ticks++) {
        if (carrying(B) == 0)
            return ticks;
        tick(B);
    }
    return -1;
}

static void leave(void)
{
    IS(ticks_after_the_end(true), 0);
    IS(ticks_after_the_end(false), 30);
}

/* two tables in memory that outlives the program; each call works on the one that is not in force and then swaps */
struct kept {
    _Atomic uint32_t in_force;
    uint8_t tables[2][SIZE];
};

static uint8_t *work_on_a_copy(struct kept *kept)
{
    const uint32_t in_force = atomic_load(&kept->in_force);
    return memcpy(kept->tables[1 - in_force], kept->tables[in_force], SIZE);
}

static void swap(struct kept *kept)
{
    atomic_store(&kept->in_force, 1 - atomic_load(&kept->in_force));
}

/* the n-th call: a key that tells how many there were */
static void count_by_key(uint8_t *table, uint16_t n)
{
    struct myrkosti_port_settings settings = settings_of(A, 1);
    settings.key = n;
    myrkosti_settings_with(table, SIZE, 1, &settings);
}

static uint16_t counted(const uint8_t *table)
{
    return (uint16_t)(field(table, 1, MYRKOSTI_AT_KEY) << 8 | field(table, 1, MYRKOSTI_AT_KEY + 1));
}

static _Noreturn void go_on(struct kept *kept)
{
    for (;;) {
        uint8_t *table = work_on_a_copy(kept);
        count_by_key(table, (uint16_t)(myrkosti_number(table + MYRKOSTI_HEADER + MYRKOSTI_AT_KEY) + 1));
        swap(kept);
    }
}

/* any moment after it has done something, however busy the machine is; five seconds are enough for that */
static void let_it_go_on(const struct kept *kept, uint16_t before)
{
    for (int waited = 0; waited < 5000 && counted(kept->tables[kept->in_force]) == before; waited++)
        usleep(1000);
    usleep(any(1000));
}

/* Killed a hundred times at any moment, the program finds a whole table, which the calls made that it tells of, and goes on with it. */
static void killed(void)
{
    struct kept *kept = mmap(NULL, sizeof *kept, PROT_READ | PROT_WRITE, MAP_SHARED | MAP_ANONYMOUS, -1, 0);
    unsigned progress = 0;
    check(kept != MAP_FAILED, "memory");
    if (kept == MAP_FAILED)
        return;
    begin(A, true);
    memcpy(kept->tables[0], A, SIZE);
    for (int kills = 0; kills < 100; kills++) {
        const uint16_t before = counted(kept->tables[kept->in_force]);
        const pid_t child = fork();
        if (child == 0)
            go_on(kept);
        let_it_go_on(kept, before);
        kill(child, SIGKILL);
        waitpid(child, NULL, 0);
        const uint8_t *left = kept->tables[kept->in_force];
        progress += counted(left) != before;
        count_by_key(A, before);
        count_by_key(A, counted(left));
        IS(memcmp(left, A, SIZE), 0);
    }
    check(progress > 90, "the killed program had done something");
    munmap(kept, sizeof *kept);
}

/* ---- new firmware under live trunks ---- */

/* of a table of either form: its size, and what lies before the churn fields or in their place */
enum { OLD_SIZE = MYRKOSTI_OLD_TABLE(PORTS), FRONT_SIZE = OLD_SIZE - PORTS * MYRKOSTI_ASKED };

/*
 * So many ticks after a trunk formed, A's table is moved back; A says and does nothing for a while, and goes on with the table moved forward. The first
 * LACPDU after that may get lost. Whether B carries all along.
 */
static bool stands_through(int ticks, int pause, bool lost)
{
    uint8_t old[OLD_SIZE];
    bool stands = true;
    trunk_of_two();
    pass(ticks);
    IS(myrkosti_back(A, SIZE, old, sizeof old), MYRKOSTI_DONE);
    for (int paused = 0; paused < pause; paused++) {
        tick(B);
        stands &= carrying(B) == 3;
    }
    IS(myrkosti_forward(old, sizeof old, A, SIZE), MYRKOSTI_DONE);
    talk();
    for (int after = 0; after < 40; after++) {
        tick(A);
        tick(B);
        stands &= carrying(B) == 3;
        if (lost && due(A) != 0) {
            say_in_vain(A);
            lost = false;
        }
        talk();
    }
    return stands;
}

/* a pause is added to the second between two LACPDUs, wherever in it A stops: B gives A up at the third second, and not before */
static void load_in_time(void)
{
    for (int ticks = 0; ticks < 10; ticks++) {
        IS(stands_through(ticks, 19, false), true);
        IS(stands_through(ticks, 20, false), false);
        IS(stands_through(ticks, 9, true), true);
        IS(stands_through(ticks, 10, true), false);
    }
}

/* one memory for a table of either form, and for the time of the call as much again as an old table has */
static uint32_t forward_in_place(uint8_t *table, uint32_t ports)
{
    uint8_t scratch[MYRKOSTI_OLD_TABLE(MYRKOSTI_PORTS)];
    const size_t old_len = myrkosti_old_table_size(ports);
    memcpy(scratch, table, old_len);
    return myrkosti_forward(scratch, old_len, table, myrkosti_table_size(ports));
}

static uint32_t back_in_place(uint8_t *table, uint32_t ports)
{
    uint8_t scratch[MYRKOSTI_OLD_TABLE(MYRKOSTI_PORTS)];
    const size_t old_len = myrkosti_old_table_size(ports);
    const uint32_t answer = myrkosti_back(table, myrkosti_table_size(ports), scratch, old_len);
    if (answer == MYRKOSTI_DONE)
        memcpy(table, scratch, old_len);
    return answer;
}

/* the trunk goes on; a table that is of the other form, and so is refused, stays as it is */
static void one_memory(void)
{
    uint8_t before[SIZE];
    trunk_of_two();
    IS(back_in_place(A, PORTS), MYRKOSTI_DONE);
    memset(A + OLD_SIZE, 0xa5, SIZE - OLD_SIZE); /* somebody else's, until there is a table of today again */
    memcpy(before, A, SIZE);
    IS(back_in_place(A, PORTS), MYRKOSTI_TABLE_WRONG);
    IS(forward_in_place(A, 0), MYRKOSTI_TABLE_WRONG);
    IS(memcmp(A, before, SIZE), 0);
    IS(forward_in_place(A, PORTS), MYRKOSTI_DONE);
    IS(memcmp(A, before, FRONT_SIZE), 0);
    IS(memcmp(A + SIZE - PORTS * MYRKOSTI_ASKED, before + FRONT_SIZE, PORTS * MYRKOSTI_ASKED), 0);
    pass(60);
    IS(carrying(A), 3);
    IS(carrying(B), 3);
}

/* how many LACPDUs port 1 of A can send at once, with another key each time */
static int sends_at_once(void)
{
    uint8_t frame[MYRKOSTI_FRAME];
    int sends = 0;
    for (uint16_t key = 2; key < 8; key++) {
        set_key(A, 1, key);
        sends += myrkosti_fetch(A, SIZE, 1, frame, sizeof frame, page(A, 1)) == MYRKOSTI_DONE;
    }
    return sends;
}

/* a table that was moved and gone on with is the one that counts: the source of before does not know what was sent since */
static void kept_for_too_long(void)
{
    uint8_t kept[OLD_SIZE], old[OLD_SIZE];
    trunk_of_two();
    pass(9);
    IS(myrkosti_back(A, SIZE, kept, sizeof kept), MYRKOSTI_DONE);
    IS(myrkosti_forward(kept, sizeof kept, A, SIZE), MYRKOSTI_DONE);
    const int sends = sends_at_once();
    check(sends > 0 && sends <= 3, "three LACPDUs in a second at most");
    IS(myrkosti_back(A, SIZE, old, sizeof old), MYRKOSTI_DONE);
    IS(myrkosti_forward(old, sizeof old, A, SIZE), MYRKOSTI_DONE);
    IS(sends_at_once(), 0);
    IS(myrkosti_forward(kept, sizeof kept, A, SIZE), MYRKOSTI_DONE);
    check(sends + sends_at_once() > 3, "with a table kept from before more go");
}

/* A table that a library before version 0x0201 left, in memory with room for one of today: put behind it what such a library has not. */
static uint32_t take_over(uint8_t *table, size_t left_len)
{
    const uint32_t ports = table[0];
    const size_t missing = MYRKOSTI_ASKED * ports;
    uint8_t record[MYRKOSTI_RECORD];
    if (left_len + missing != myrkosti_table_size(ports) && left_len + missing != myrkosti_old_table_size(ports))
        return MYRKOSTI_TABLE_WRONG;
    memset(table + left_len, 0, missing);
    if (left_len + missing == myrkosti_old_table_size(ports))
        return forward_in_place(table, ports);
    return myrkosti_port(table, myrkosti_table_size(ports), 1, record, sizeof record);
}

/* and the other way round, before such a library goes on: 0x0100 has tables of the old form */
static uint32_t hand_back(uint8_t *table, uint32_t version, size_t *left_len)
{
    const uint32_t ports = table[0], answer = version == 0x0100 ? back_in_place(table, ports) : MYRKOSTI_DONE;
    *left_len = (version == 0x0100 ? myrkosti_old_table_size(ports) : myrkosti_table_size(ports)) - MYRKOSTI_ASKED * ports;
    return answer;
}

/* a table of either library of before, under a trunk, and back to it with what it had; other lengths are refused and nothing is written */
static void firmware_from_before(void)
{
    static const uint32_t VERSIONS[2] = {0x0100, 0x0200};
    for (size_t i = 0; i < 2; i++) {
        uint8_t left[SIZE];
        size_t left_len;
        trunk_of_two();
        IS(ask_and_hear(1), MYRKOSTI_DONE);
        IS(hand_back(A, VERSIONS[i], &left_len), MYRKOSTI_DONE);
        IS(left_len, (size_t)(MYRKOSTI_HEADER + (i == 0 ? 57 : 71) * PORTS));
        memset(A + left_len, 0xa5, SIZE - left_len);
        memcpy(left, A, SIZE);
        IS(take_over(A, left_len - 1), MYRKOSTI_TABLE_WRONG);
        IS(take_over(A, left_len + 1), MYRKOSTI_TABLE_WRONG);
        IS(take_over(A, SIZE), MYRKOSTI_TABLE_WRONG);
        IS(memcmp(A, left, SIZE), 0);
        IS(take_over(A, left_len), MYRKOSTI_DONE);
        IS(memcmp(A, left, FRONT_SIZE), 0);
        IS(outcome(1), MYRKOSTI_MARKER_NONE);
        pass(60);
        IS(carrying(A), 3);
        IS(carrying(B), 3);
        IS(ask_and_hear(1), MYRKOSTI_DONE);
        IS(hand_back(A, VERSIONS[i], &left_len), MYRKOSTI_DONE);
    }
}

/* a Marker that is awaited when the table is moved is awaited on: its Response counts afterwards */
static void awaited_through_a_move(void)
{
    uint8_t marker[MYRKOSTI_FRAME], response[MYRKOSTI_FRAME], out[MYRKOSTI_FRAME];
    uint32_t sent;
    trunk_of_two();
    IS(myrkosti_ask(A, SIZE, 1, 30, marker, sizeof marker), MYRKOSTI_DONE);
    IS(myrkosti_receive(B, SIZE, 1, marker, sizeof marker, response, sizeof response, &sent, page(B, 1)), MYRKOSTI_DONE);
    IS(back_in_place(A, PORTS), MYRKOSTI_DONE);
    IS(forward_in_place(A, PORTS), MYRKOSTI_DONE);
    pass(1);
    IS(myrkosti_receive(A, SIZE, 1, response, sizeof response, out, sizeof out, &sent, page(A, 1)), MYRKOSTI_DONE);
    IS(outcome(1), MYRKOSTI_MARKER_ANSWERED);
}

int main(void)
{
    keep_what_could_not_be_sent();
    hand_over_in_batches();
    leave_the_tag_on();
    start_values();
    unknown_duplex();
    come_and_go();
    wake_up();
    late_tick();
    number_of_a_trunk();
    neighbour_does_not_hear_us();
    neighbour_keeps_the_link_out();
    two_neighbours_behind_one_cable();
    held_back_by_another();
    flapping_link();
    collects_never();
    pace();
    lost_in_one_direction();
    counted_at_half_duplex();
    markers_unanswered();
    other_senders();
    publish_differences();
    pages_outlive();
    no_pages();
    keeps_the_order();
    goes_on_without_a_response();
    goes_on_when_the_link_falls();
    asks_no_more_often();
    marker_kept_too_long();
    leave();
    load_in_time();
    one_memory();
    kept_for_too_long();
    firmware_from_before();
    awaited_through_a_move();
    killed();
    return finish("what the guide says");
}
