/*
 * Churn detection through include/myrkosti.h (43.4.17): the two monitors of a port along runs, in any memory, and where they lie. Prints one line for each
 * check that fails, and how many passed.
 */
#include "myrkosti.h"

#include "check.h"
#include "monitors.h"
#include "neighbour.h"
#include "unread.h"

#include <string.h>

enum { PORTS = 2, SIZE = MYRKOSTI_TABLE(PORTS), LARGEST = MYRKOSTI_TABLE(MYRKOSTI_PORTS) };

static const uint8_t ADDRESS[6] = {0x02, 0x00, 0x5e, 0x10, 0x20, 0x30};
static const uint8_t NOBODY[MYRKOSTI_BLOCK];
/* a default partner that is in sync and collects */
static const uint8_t IN_SYNC[MYRKOSTI_BLOCK] = {0, 1, 0, 0, 0, 0, 0, 7, 0, 1, 0, 1, 0, 1, 0x1a};
static const struct myrkosti_system THEM = {{0, 0, 0, 0, 0, 5}, 1, 0};

/* what a neighbour may say of itself: active, short timeout, aggregatable, and in sync or not */
enum { OUT_OF_SYNC_STATE = 0x07, IN_SYNC_STATE = 0x0f };

static uint8_t table[SIZE];

/* ---- calls that must be answered 0 ---- */

static struct myrkosti_system us(void)
{
    return myrkosti_usual_system(ADDRESS);
}

static uint32_t set(uint32_t port, uint16_t key, const uint8_t partner[MYRKOSTI_BLOCK])
{
    struct myrkosti_port_settings settings = myrkosti_usual_settings(ADDRESS, key);
    memcpy(settings.partner, partner, MYRKOSTI_BLOCK);
    return myrkosti_settings_with(table, SIZE, port, &settings);
}

static void start(const uint8_t partner[MYRKOSTI_BLOCK])
{
    const struct myrkosti_system system = us();
    struct myrkosti_port_settings settings = myrkosti_usual_settings(ADDRESS, 1);
    memcpy(settings.partner, partner, MYRKOSTI_BLOCK);
    IS(myrkosti_start_with(table, SIZE, PORTS, &system, &settings), MYRKOSTI_DONE);
}

static void line(bool up, bool full)
{
    IS(myrkosti_line(table, SIZE, 1, up, full), MYRKOSTI_DONE);
}

static void pass(int ticks)
{
    while (ticks-- > 0)
        IS(myrkosti_tick(table, SIZE), MYRKOSTI_DONE);
}

/* an LACPDU on a port: the neighbour says this state of itself, and heard what we say */
static uint32_t hear_on(uint32_t port, uint8_t state)
{
    const struct myrkosti_system system = us();
    uint8_t frame[MYRKOSTI_FRAME], theirs[MYRKOSTI_BLOCK], ours[MYRKOSTI_BLOCK], out[MYRKOSTI_FRAME], record[MYRKOSTI_RECORD];
    uint32_t sent;
    gather(table, PORTS, port, record);
    put_ours(theirs, &THEM, (uint16_t)port, record);
    theirs[MYRKOSTI_BLOCK_STATE] = state;
    put_ours(ours, &system, (uint16_t)port, record);
    put_lacpdu(frame, theirs, ours);
    return myrkosti_receive(table, SIZE, port, frame, sizeof frame, out, sizeof out, &sent, &unread);
}

static void hear(uint8_t state)
{
    IS(hear_on(1, state), MYRKOSTI_DONE);
}

/* ---- what a monitor is ---- */

static bool same(struct monitor a, struct monitor b)
{
    return a.state == b.state && a.timer == b.timer && a.count == b.count;
}

/* a monitor of port 1 as the library reports it, which is what lies in the table */
static struct monitor reported(enum which which)
{
    uint8_t record[MYRKOSTI_RECORD], there[MYRKOSTI_RECORD];
    IS(myrkosti_port(table, SIZE, 1, record, sizeof record), MYRKOSTI_DONE);
    gather(table, PORTS, 1, there);
    IS(memcmp(record, there, sizeof record), 0);
    return monitor_of(table, PORTS, 1, which);
}

#define MONITORS(which, state, timer, count) \
    check(same(reported(which), (struct monitor){state, timer, count}), #which " is " #state ", timer " #timer ", count " #count)

/* ---- along runs ---- */

/* a start begins both, on every port, whatever the default block says: its ports are down */
static void begin(void)
{
    const uint8_t *const defaults[2] = {NOBODY, IN_SYNC};
    memset(table, 0xa5, SIZE);
    for (unsigned i = 0; i < 2; i++) {
        start(defaults[i]);
        for (int ticks = 0; ticks < 30; ticks++) { /* at tick 20 the ports attach, with Synchronization, and that does not end it while they are down */
            for (uint32_t port = 1; port <= PORTS; port++) {
                check(same(monitor_of(table, PORTS, port, ACTOR), BEGUN), "the actor's monitor waits for a link");
                check(same(monitor_of(table, PORTS, port, PARTNER), BEGUN), "the partner's monitor waits for a link");
            }
            pass(1);
        }
    }
}

/* a link comes up to a partner that is never in sync: its monitor runs for 600 ticks from then on, and at the last of them it churns, once; ours ends as
   we attach */
static void come_up_unheard(bool full)
{
    start(NOBODY);
    line(true, full);
    for (uint16_t ticks = 0; ticks < MINUTE; ticks++) {
        MONITORS(PARTNER, MYRKOSTI_CHURN_MONITOR, MINUTE - ticks, 0);
        MONITORS(ACTOR, ticks < 20 ? MYRKOSTI_CHURN_MONITOR : MYRKOSTI_NO_CHURN, ticks < 20 ? MINUTE - ticks : 0, 0);
        pass(1);
    }
    for (int ticks = 0; ticks < 2 * MINUTE; ticks++) {
        MONITORS(PARTNER, MYRKOSTI_CHURN, 0, 1);
        MONITORS(ACTOR, MYRKOSTI_NO_CHURN, 0, 0);
        pass(1);
    }
}

static void churn_after_a_minute(void)
{
    come_up_unheard(true);
}

/* a port at half duplex is not disabled: its monitors run, from the call on in which it comes up */
static void run_at_half_duplex(void)
{
    come_up_unheard(false);
}

/* the link falls: both begin anew, though we stay attached with Synchronization, and do not run until it is up; what was counted stays */
static void fall_in_churn(void)
{
    start(NOBODY);
    line(true, true);
    pass(MINUTE);
    MONITORS(PARTNER, MYRKOSTI_CHURN, 0, 1);
    line(false, true);
    for (int ticks = 0; ticks < 30; ticks++) {
        MONITORS(PARTNER, MYRKOSTI_CHURN_MONITOR, MINUTE, 1);
        MONITORS(ACTOR, MYRKOSTI_CHURN_MONITOR, MINUTE, 0);
        pass(1);
    }
    line(true, true);
    MONITORS(PARTNER, MYRKOSTI_CHURN_MONITOR, MINUTE, 1);
    MONITORS(ACTOR, MYRKOSTI_NO_CHURN, 0, 0);
    pass(MINUTE - 1);
    MONITORS(PARTNER, MYRKOSTI_CHURN_MONITOR, 1, 1);
    pass(1);
    MONITORS(PARTNER, MYRKOSTI_CHURN, 0, 2);
}

/* Synchronization ends churn in the call that brings it, and a minute begins with the call that takes it away */
static void settle_and_fall_out(void)
{
    start(NOBODY);
    line(true, true);
    hear(OUT_OF_SYNC_STATE);
    MONITORS(PARTNER, MYRKOSTI_CHURN_MONITOR, MINUTE, 0);
    pass(10);
    hear(IN_SYNC_STATE);
    MONITORS(PARTNER, MYRKOSTI_NO_CHURN, 0, 0);
    MONITORS(ACTOR, MYRKOSTI_CHURN_MONITOR, MINUTE - 10, 0);
    pass(10);
    hear(OUT_OF_SYNC_STATE);
    MONITORS(PARTNER, MYRKOSTI_CHURN_MONITOR, MINUTE, 0);
    for (int ticks = 0; ticks < MINUTE; ticks++) {
        pass(1);
        if (ticks % 20 == 0)
            hear(OUT_OF_SYNC_STATE);
    }
    MONITORS(PARTNER, MYRKOSTI_CHURN, 0, 1);
    hear(IN_SYNC_STATE);
    MONITORS(PARTNER, MYRKOSTI_NO_CHURN, 0, 1);
    hear(OUT_OF_SYNC_STATE);
    MONITORS(PARTNER, MYRKOSTI_CHURN_MONITOR, MINUTE, 1);
}

/* a partner out of sync, and if it is not heard again given up 60 ticks later for the default one */
static void hear_out_of_sync(uint16_t ticks)
{
    (void)ticks;
    hear(OUT_OF_SYNC_STATE);
}

/* a key of its own for each tick, so that the port attaches 20 ticks after the last */
static void take_another_key(uint16_t ticks)
{
    IS(set(1, 1 + ticks, NOBODY), MYRKOSTI_DONE);
}

/* of each monitor, what keeps its end out of Synchronization, and the ticks after which it has settled */
static const struct {
    const uint8_t *assumed; /* of the partner, while it is not heard */
    void (*disturb)(uint16_t ticks);
    uint16_t settles;
} HELD_UP[2] = {
    [ACTOR] = {NOBODY, take_another_key, 20},
    [PARTNER] = {IN_SYNC, hear_out_of_sync, 60},
};

/* the end is kept out of Synchronization until tick `last`, every second; then what comes with the last tick of the minute */
static void settle_after(enum which which, uint16_t last)
{
    start(HELD_UP[which].assumed);
    line(true, true);
    for (uint16_t ticks = 1; ticks < MINUTE; ticks++) {
        pass(1);
        if (ticks <= last && ticks % 10 == last % 10)
            HELD_UP[which].disturb(ticks);
    }
    MONITORS(which, MYRKOSTI_CHURN_MONITOR, 1, 0);
    pass(1);
}

/* Synchronization at the very tick of expiry goes before it, and nothing is counted; a tick later it is too late */
static void settle_at_the_last_tick(void)
{
    for (enum which which = ACTOR; which <= PARTNER; which++) {
        const uint16_t last = MINUTE - HELD_UP[which].settles;
        settle_after(which, last);
        MONITORS(which, MYRKOSTI_NO_CHURN, 0, 0);
        settle_after(which, last + 1);
        MONITORS(which, MYRKOSTI_CHURN, 0, 1);
        pass(1);
        MONITORS(which, MYRKOSTI_NO_CHURN, 0, 1);
    }
}

/* a change of duplex on an up port is one call, after which its link is up: it begins nothing anew, though ours does if the port detaches */
static void change_duplex(void)
{
    start(NOBODY);
    line(true, true);
    pass(100);
    line(true, false);
    MONITORS(PARTNER, MYRKOSTI_CHURN_MONITOR, MINUTE - 100, 0);
    MONITORS(ACTOR, MYRKOSTI_CHURN_MONITOR, MINUTE, 0);
    pass(100);
    line(true, true);
    MONITORS(PARTNER, MYRKOSTI_CHURN_MONITOR, MINUTE - 200, 0);
    MONITORS(ACTOR, MYRKOSTI_NO_CHURN, 0, 0);
    pass(MINUTE - 200);
    for (int changes = 0; changes < 4; changes++) {
        MONITORS(PARTNER, MYRKOSTI_CHURN, 0, 1);
        line(true, changes % 2 == 1);
    }
    line(false, false);
    MONITORS(PARTNER, MYRKOSTI_CHURN_MONITOR, MINUTE, 1);
    line(false, true);
    MONITORS(PARTNER, MYRKOSTI_CHURN_MONITOR, MINUTE, 1);
}

/* after 4294967295 comes 0 */
static void count_around(void)
{
    start(NOBODY);
    line(true, true);
    put_monitor(table, PORTS, 1, ACTOR, (struct monitor){MYRKOSTI_CHURN_MONITOR, 1, 4294967295u});
    put_monitor(table, PORTS, 1, PARTNER, (struct monitor){MYRKOSTI_CHURN_MONITOR, 1, 0x00ffffff});
    pass(1);
    MONITORS(ACTOR, MYRKOSTI_CHURN, 0, 0);
    MONITORS(PARTNER, MYRKOSTI_CHURN, 0, 0x01000000);
}

/* ---- in any memory ---- */

/* calls on a table in which port 2 is up, distributes and has something to send */

static uint32_t tick(void)
{
    return myrkosti_tick(table, SIZE);
}

static uint32_t fall(void)
{
    return myrkosti_line(table, SIZE, 2, false, true);
}

static uint32_t halve(void)
{
    return myrkosti_line(table, SIZE, 2, true, false);
}

static uint32_t set_other(void)
{
    return set(2, 2, NOBODY);
}

static uint32_t hear_lacpdu(void)
{
    return hear_on(2, IN_SYNC_STATE);
}

static uint32_t repeat_line(void)
{
    return myrkosti_line(table, SIZE, 2, true, true);
}

static uint32_t repeat_line_of_first(void)
{
    return myrkosti_line(table, SIZE, 1, table[place(PORTS, 1, MYRKOSTI_AT_LINK)] != 0, true);
}

static uint32_t repeat_settings(void)
{
    return set(2, 1, NOBODY);
}

static uint32_t hear_marker(void)
{
    uint8_t frame[MYRKOSTI_FRAME], out[MYRKOSTI_FRAME];
    uint32_t sent;
    put_marker(frame, 1);
    return myrkosti_receive(table, SIZE, 2, frame, sizeof frame, out, sizeof out, &sent, &unread);
}

static uint32_t fetch(void)
{
    uint8_t out[MYRKOSTI_FRAME];
    return myrkosti_fetch(table, SIZE, 2, out, sizeof out, &unread);
}

static uint32_t ask_due(void)
{
    uint32_t ports;
    return myrkosti_due(table, SIZE, &ports);
}

static uint32_t report_port(void)
{
    uint8_t record[MYRKOSTI_RECORD];
    return myrkosti_port(table, SIZE, 1, record, sizeof record);
}

static uint32_t report_aggregator(void)
{
    uint32_t holding, attached, distributing, count, lowest;
    return myrkosti_aggregator(table, SIZE, 1, &holding, &attached, &distributing, &count, &lowest);
}

static uint32_t report_why(void)
{
    uint32_t cause, holder, ticks;
    return myrkosti_why(table, SIZE, 1, &cause, &holder, &ticks);
}

static uint32_t report_apart(void)
{
    uint32_t reasons;
    return myrkosti_apart(table, SIZE, 1, 2, &reasons);
}

static uint32_t refuse_tick(void)
{
    return myrkosti_tick(table, SIZE - 1);
}

static uint32_t refuse_line(void)
{
    return myrkosti_line(table, SIZE, 3, false, true);
}

static uint32_t refuse_settings(void)
{
    return set(3, 2, NOBODY);
}

static uint32_t refuse_start(void)
{
    const struct myrkosti_system system = us();
    const struct myrkosti_port_settings settings = myrkosti_usual_settings(ADDRESS, 1);
    return myrkosti_start_with(table, SIZE, PORTS + 1, &system, &settings);
}

enum after { AS_BEFORE, RUN, FALLEN_AND_RUN };

static const struct {
    const char *name;
    uint32_t (*make)(void);
    uint32_t answer;
    enum after after; /* what the call does to the monitors */
} ANY_CALL[] = {
    {"a tick", tick, MYRKOSTI_DONE, FALLEN_AND_RUN},
    {"a link that falls", fall, MYRKOSTI_DONE, RUN},
    {"half duplex", halve, MYRKOSTI_DONE, RUN},
    {"other settings", set_other, MYRKOSTI_DONE, RUN},
    {"an LACPDU", hear_lacpdu, MYRKOSTI_DONE, RUN},
    {"a repeated line", repeat_line, MYRKOSTI_DONE, AS_BEFORE},
    {"a repeated line of port 1", repeat_line_of_first, MYRKOSTI_DONE, AS_BEFORE},
    {"repeated settings", repeat_settings, MYRKOSTI_DONE, AS_BEFORE},
    {"a Marker", hear_marker, MYRKOSTI_DONE, AS_BEFORE},
    {"a fetch", fetch, MYRKOSTI_DONE, AS_BEFORE},
    {"due", ask_due, MYRKOSTI_DONE, AS_BEFORE},
    {"a port report", report_port, MYRKOSTI_DONE, AS_BEFORE},
    {"an aggregator report", report_aggregator, MYRKOSTI_DONE, AS_BEFORE},
    {"why", report_why, MYRKOSTI_DONE, AS_BEFORE},
    {"apart", report_apart, MYRKOSTI_DONE, AS_BEFORE},
    {"a refused tick", refuse_tick, MYRKOSTI_TABLE_WRONG, AS_BEFORE},
    {"a refused line", refuse_line, MYRKOSTI_NO_SUCH_PORT, AS_BEFORE},
    {"refused settings", refuse_settings, MYRKOSTI_NO_SUCH_PORT, AS_BEFORE},
    {"a refused start", refuse_start, MYRKOSTI_TABLE_WRONG, AS_BEFORE},
};

/*
 * Port 1 with these monitors, link and Synchronizations, in a state in which no call on port 2 and no tick changes link or Synchronizations; whether a
 * run could make it does not matter.
 */
static void put_first(bool up, bool in_sync, bool partner_in_sync, struct monitor actor, struct monitor partner)
{
    start(NOBODY);
    IS(myrkosti_line(table, SIZE, 2, true, true), MYRKOSTI_DONE);
    table[place(PORTS, 2, MYRKOSTI_AT_MUX)] = MYRKOSTI_MUX_DISTRIBUTING;
    table[place(PORTS, 1, MYRKOSTI_AT_LINK)] = up;
    table[place(PORTS, 1, MYRKOSTI_AT_RECEIVE)] = up ? MYRKOSTI_RECEIVE_DEFAULTED : MYRKOSTI_RECEIVE_PORT_DISABLED;
    table[place(PORTS, 1, MYRKOSTI_AT_ACTOR_STATE)] |= in_sync ? MYRKOSTI_SYNCHRONIZATION : 0;
    table[place(PORTS, 1, MYRKOSTI_AT_PARTNER + MYRKOSTI_BLOCK_STATE)] = partner_in_sync ? MYRKOSTI_SYNCHRONIZATION : 0;
    put_monitor(table, PORTS, 1, ACTOR, actor);
    put_monitor(table, PORTS, 1, PARTNER, partner);
}

/* each of the calls on that table: after it the monitors of both ports are what the figures say of those before it, and of what stands after step 6 */
static void try_every_call(bool up, bool in_sync, bool partner_in_sync, struct monitor actor, struct monitor partner)
{
    for (unsigned i = 0; i < sizeof ANY_CALL / sizeof ANY_CALL[0]; i++) {
        uint8_t groups[PORTS * GROUP], expected[SIZE];
        put_first(up, in_sync, partner_in_sync, actor, partner);
        memcpy(groups, table + place(PORTS, 1, FRONT), sizeof groups);
        IS(ANY_CALL[i].make(), ANY_CALL[i].answer);
        memcpy(expected, table, SIZE);
        memcpy(expected + place(PORTS, 1, FRONT), groups, sizeof groups);
        if (ANY_CALL[i].after != AS_BEFORE)
            watch_all(expected, PORTS, ANY_CALL[i].after == FALLEN_AND_RUN);
        check(memcmp(table, expected, SIZE) == 0, ANY_CALL[i].name);
        check((table[place(PORTS, 1, MYRKOSTI_AT_LINK)] != 0) == up, "the link of port 1 stays");
        check(((table[place(PORTS, 1, MYRKOSTI_AT_ACTOR_STATE)] & MYRKOSTI_SYNCHRONIZATION) != 0) == in_sync, "its Synchronization stays");
    }
}

/* every state of both, with timers that have run out, are about to, run, or have just begun */
static void try_any_memory(void)
{
    static const uint16_t TIMERS[4] = {0, 1, 2, MINUTE};
    for (unsigned bits = 0; bits < 8; bits++) {
        for (uint8_t states = 0; states < 9; states++) {
            for (unsigned timers = 0; timers < 16; timers++) {
                const struct monitor actor = {states % 3, TIMERS[timers % 4], bits % 2 == 0 ? 7 : 4294967295u};
                const struct monitor partner = {states / 3, TIMERS[timers / 4], 0x0a0b0cff};
                try_every_call((bits & 1) != 0, (bits & 2) != 0, (bits & 4) != 0, actor, partner);
            }
        }
    }
}

/* an accepted start begins everything anew, whatever was counted */
static void start_anew(void)
{
    start(NOBODY);
    put_monitor(table, PORTS, 1, ACTOR, (struct monitor){MYRKOSTI_CHURN, 0, 9});
    put_monitor(table, PORTS, 1, PARTNER, (struct monitor){MYRKOSTI_CHURN, 3, 9});
    start(NOBODY);
    MONITORS(ACTOR, MYRKOSTI_CHURN_MONITOR, MINUTE, 0);
    MONITORS(PARTNER, MYRKOSTI_CHURN_MONITOR, MINUTE, 0);
}

/* ---- ranges and places ---- */

/* the answer to a report, which must be that of a tick on a copy, and that a refusal leaves the table */
static uint32_t answer(void)
{
    uint8_t record[MYRKOSTI_RECORD], copy[SIZE];
    const uint32_t reports = myrkosti_port(table, SIZE, 1, record, sizeof record);
    memcpy(copy, table, SIZE);
    IS(myrkosti_tick(copy, SIZE), reports);
    check(reports == MYRKOSTI_DONE || memcmp(copy, table, SIZE) == 0, "a refused tick leaves the table");
    return reports;
}

/* a state is 0 to 2, a timer at most 600, a count anything */
static void range(void)
{
    for (uint32_t port = 1; port <= PORTS; port++) {
        for (enum which which = ACTOR; which <= PARTNER; which++) {
            struct monitor m = {0};
            start(NOBODY);
            for (unsigned state = 0; state < 256; state++) {
                m.state = (uint8_t)state;
                put_monitor(table, PORTS, port, which, m);
                IS(answer(), state <= MYRKOSTI_CHURN ? MYRKOSTI_DONE : MYRKOSTI_TABLE_WRONG);
            }
            m.state = MYRKOSTI_NO_CHURN;
            for (uint32_t timer = 0; timer <= 0xffff; timer++) {
                m.timer = (uint16_t)timer;
                put_monitor(table, PORTS, port, which, m);
                IS(answer(), timer <= MINUTE ? MYRKOSTI_DONE : MYRKOSTI_TABLE_WRONG);
            }
            m.timer = 0;
            for (unsigned i = 0; i <= 32; i++) {
                m.count = i < 32 ? 1u << i : 4294967295u;
                put_monitor(table, PORTS, port, which, m);
                IS(answer(), MYRKOSTI_DONE);
            }
        }
    }
}

/* tables of every port count have room for their groups and no more; each port's record is reported from its places, and changes there */
static void lie_in_two_places(void)
{
    static uint8_t large[LARGEST + 1];
    const struct myrkosti_system system = us();
    const struct myrkosti_port_settings settings = myrkosti_usual_settings(ADDRESS, 1);
    for (uint32_t ports = 1; ports <= MYRKOSTI_PORTS; ports++) {
        const size_t size = MYRKOSTI_HEADER + 57 * ports + 14 * ports + 7 * ports;
        IS(myrkosti_table_size(ports), size);
        IS(myrkosti_start_with(large, size - 1, ports, &system, &settings), MYRKOSTI_TABLE_WRONG);
        IS(myrkosti_start_with(large, size + 1, ports, &system, &settings), MYRKOSTI_TABLE_WRONG);
        IS(myrkosti_start_with(large, size, ports, &system, &settings), MYRKOSTI_DONE);
        for (uint32_t port = 1; port <= ports; port++) {
            IS(place(ports, port, 0), MYRKOSTI_HEADER + 57 * (port - 1));
            IS(place(ports, port, 57), MYRKOSTI_HEADER + 57 * ports + 14 * (port - 1));
            IS(place(ports, port, 71), MYRKOSTI_HEADER + 57 * ports + 14 * ports + 7 * (port - 1));
            put_monitor(large, ports, port, ACTOR, (struct monitor){MYRKOSTI_NO_CHURN, (uint16_t)(256 + port), 0x11000000 + port});
            put_monitor(large, ports, port, PARTNER, (struct monitor){MYRKOSTI_CHURN, (uint16_t)(port), 0x22000000 + port});
        }
        for (uint32_t port = 1; port <= ports; port++) {
            uint8_t record[MYRKOSTI_RECORD], there[MYRKOSTI_RECORD];
            IS(myrkosti_port(large, size, port, record, sizeof record), MYRKOSTI_DONE);
            gather(large, ports, port, there);
            IS(memcmp(record, there, sizeof record), 0);
            IS(myrkosti_long_number(record + 63), 0x11000000 + port);
            IS(myrkosti_long_number(record + 67), 0x22000000 + port);
        }
    }
}

int main(void)
{
    begin();
    churn_after_a_minute();
    fall_in_churn();
    settle_and_fall_out();
    settle_at_the_last_tick();
    run_at_half_duplex();
    change_duplex();
    count_around();
    try_any_memory();
    start_anew();
    range();
    lie_in_two_places();
    return finish("churn detection");
}
