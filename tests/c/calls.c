/*
 * Drives every function of include/myrkosti.h, with its refusals; what receive and fetch count is left to counters.c. Prints one line for each check that
 * fails, and how many passed.
 */
#include "myrkosti.h"

#include "check.h"
#include "monitors.h"
#include "neighbour.h"
#include "ranges.h"
#include "unread.h"

#include <stdio.h>
#include <string.h>

enum { PORTS = 2, SIZE = MYRKOSTI_TABLE(PORTS) };

static const uint8_t OURS[6] = {0, 0, 0, 0, 0, 9};
static const uint8_t THEIRS[6] = {0, 0, 0, 0, 0, 5};
static const uint8_t ADDRESS[6] = {0x02, 0x00, 0x5e, 0x10, 0x20, 0x30};
static const uint8_t NOBODY[MYRKOSTI_BLOCK];

/* active, short timeout, aggregatable */
static uint32_t start(uint8_t *table, size_t length, uint32_t ports, const uint8_t partner[MYRKOSTI_BLOCK])
{
    return myrkosti_start(table, length, ports, 1, OURS, 0, ADDRESS, 1, 1, true, true, true, partner);
}

static uint32_t settings(uint8_t *table, uint32_t port, uint16_t key, const uint8_t partner[MYRKOSTI_BLOCK])
{
    return myrkosti_settings(table, SIZE, port, ADDRESS, key, 1, true, true, true, partner);
}

static void put_block(uint8_t block[MYRKOSTI_BLOCK], const uint8_t system[6], uint16_t port, uint8_t state)
{
    myrkosti_put_number(block + MYRKOSTI_BLOCK_SYSTEM_PRIORITY, 1);
    memcpy(block + MYRKOSTI_BLOCK_SYSTEM, system, 6);
    myrkosti_put_number(block + MYRKOSTI_BLOCK_KEY, 1);
    myrkosti_put_number(block + MYRKOSTI_BLOCK_PORT_PRIORITY, 1);
    myrkosti_put_number(block + MYRKOSTI_BLOCK_PORT, port);
    block[MYRKOSTI_BLOCK_STATE] = state;
}

/* an LACPDU of the same port of system 5, in sync, collecting and distributing, that says `state` of ours */
static void write_lacpdu(uint8_t frame[MYRKOSTI_FRAME], uint16_t port, uint8_t state)
{
    uint8_t theirs[MYRKOSTI_BLOCK], ours[MYRKOSTI_BLOCK];
    put_block(theirs, THEIRS, port, 0x3f);
    put_block(ours, OURS, port, state);
    put_lacpdu(frame, theirs, ours);
}

/* an octet of a port's record, which is what lies in the table */
static uint8_t field(const uint8_t *table, uint32_t port, unsigned at)
{
    uint8_t record[MYRKOSTI_RECORD], there[MYRKOSTI_RECORD];
    memset(record, 0xff, sizeof record);
    IS(myrkosti_port(table, SIZE, port, record, sizeof record), MYRKOSTI_DONE);
    gather(table, PORTS, port, there);
    IS(memcmp(record, there, sizeof record), 0);
    return record[at];
}

static void refuse_tables(void)
{
    uint8_t table[SIZE + 1], before[SIZE + 1], out[MYRKOSTI_FRAME], record[MYRKOSTI_RECORD];
    uint8_t wrong[MYRKOSTI_BLOCK] = {0};
    uint32_t a, b, c, d, e, sent = 9;
    wrong[MYRKOSTI_BLOCK_STATE] = MYRKOSTI_COLLECTING;
    memset(table, 0xa5, sizeof table);
    memcpy(before, table, sizeof table);
    IS(myrkosti_table_size(0), 0);
    IS(myrkosti_table_size(1), 89);
    IS(myrkosti_table_size(32), 2507);
    IS(myrkosti_table_size(33), 0);
    IS(start(table, SIZE + 1, PORTS, NOBODY), MYRKOSTI_TABLE_WRONG);
    IS(start(table, SIZE - 1, PORTS, NOBODY), MYRKOSTI_TABLE_WRONG);
    IS(start(table, place(PORTS, 1, FRONT), PORTS, NOBODY), MYRKOSTI_TABLE_WRONG);
    IS(start(table, place(PORTS, 1, BEHIND), PORTS, NOBODY), MYRKOSTI_TABLE_WRONG);
    IS(start(table, SIZE, 0, NOBODY), MYRKOSTI_TABLE_WRONG);
    IS(start(table, SIZE, PORTS, wrong), MYRKOSTI_DEFAULT_WRONG);
    IS(myrkosti_tick(table, SIZE), MYRKOSTI_TABLE_WRONG);
    IS(myrkosti_line(table, SIZE, 1, true, true), MYRKOSTI_TABLE_WRONG);
    IS(settings(table, 1, 1, NOBODY), MYRKOSTI_TABLE_WRONG);
    IS(myrkosti_fetch(table, SIZE, 1, out, sizeof out, &unread), MYRKOSTI_TABLE_WRONG);
    IS(myrkosti_receive(table, SIZE, 1, out, 0, out, sizeof out, &sent, &unread), MYRKOSTI_TABLE_WRONG);
    IS(myrkosti_ask(table, SIZE, 1, 1, out, sizeof out), MYRKOSTI_TABLE_WRONG);
    IS(sent, 0);
    IS(myrkosti_port(table, 0, 1, record, sizeof record), MYRKOSTI_TABLE_WRONG);
    memset(record, 0xff, sizeof record);
    IS(myrkosti_port(table, SIZE, 1, record, sizeof record), MYRKOSTI_TABLE_WRONG);
    for (unsigned i = 0; i < sizeof record; i++) {
        IS(record[i], 0);
    }
    a = b = c = d = e = 9;
    IS(myrkosti_aggregator(table, SIZE, 1, &a, &b, &c, &d, &e), MYRKOSTI_TABLE_WRONG);
    IS(a | b | c | d | e, 0);
    a = 9;
    IS(myrkosti_due(table, SIZE, &a), MYRKOSTI_TABLE_WRONG);
    IS(a, 0);
    a = b = c = d = 9;
    IS(myrkosti_why(table, SIZE, 1, &a, &b, &c), MYRKOSTI_TABLE_WRONG);
    IS(myrkosti_apart(table, SIZE, 1, 2, &d), MYRKOSTI_TABLE_WRONG);
    IS(a | b | c | d, 0);
    IS(memcmp(table, before, sizeof table), 0);
}

static void refuse_arguments(uint8_t *table)
{
    uint8_t before[SIZE], out[MYRKOSTI_FRAME], frame[MYRKOSTI_FRAME], record[MYRKOSTI_RECORD], wrong[MYRKOSTI_BLOCK] = {0};
    uint32_t a, b, c, d, e, sent = 9;
    memset(out, 0xff, sizeof out);
    memcpy(before, table, SIZE);
    wrong[MYRKOSTI_BLOCK_STATE] = MYRKOSTI_SYNCHRONIZATION;
    write_lacpdu(frame, 1, 0x07);
    IS(myrkosti_line(table, SIZE, 0, true, true), MYRKOSTI_NO_SUCH_PORT);
    IS(myrkosti_line(table, SIZE, PORTS + 1, true, false), MYRKOSTI_NO_SUCH_PORT);
    IS(settings(table, 4000000000u, 1, wrong), MYRKOSTI_NO_SUCH_PORT);
    IS(settings(table, 1, 1, wrong), MYRKOSTI_DEFAULT_WRONG);
    IS(myrkosti_port(table, SIZE, 0, record, sizeof record), MYRKOSTI_NO_SUCH_PORT);
    IS(myrkosti_aggregator(table, SIZE, 3, &a, &b, &c, &d, &e), MYRKOSTI_NO_SUCH_PORT);
    IS(myrkosti_why(table, SIZE, 3, &a, &b, &c), MYRKOSTI_NO_SUCH_PORT);
    IS(myrkosti_apart(table, SIZE, 1, 3, &a), MYRKOSTI_NO_SUCH_PORT);
    IS(myrkosti_fetch(table, SIZE, 1, out, 123, &unread), MYRKOSTI_BUFFER_SHORT);
    IS(myrkosti_ask(table, SIZE, 0, 1, out, sizeof out), MYRKOSTI_NO_SUCH_PORT);
    IS(myrkosti_ask(table, SIZE, 1, 1, out, 123), MYRKOSTI_BUFFER_SHORT);
    IS(myrkosti_ask(table, SIZE, 1, 601, out, sizeof out), MYRKOSTI_DEFAULT_WRONG);
    IS(myrkosti_ask(table, SIZE, 1, 600, out, sizeof out), MYRKOSTI_NOT_DISTRIBUTING);
    IS(myrkosti_receive(table, SIZE, 1, frame, 5, out, 123, &sent, &unread), MYRKOSTI_BUFFER_SHORT);
    IS(myrkosti_receive(table, SIZE, 1, frame, 13, out, sizeof out, &sent, &unread), MYRKOSTI_FOREIGN);
    IS(myrkosti_receive(table, SIZE, 1, frame, 123, out, sizeof out, &sent, &unread), MYRKOSTI_ILLEGAL);
    IS(myrkosti_receive(table, SIZE, 1, frame, 124, out, sizeof out, &sent, &unread), MYRKOSTI_LACP_OFF);
    frame[14] = 10;
    IS(myrkosti_receive(table, SIZE, 1, frame, 124, out, sizeof out, &sent, &unread), MYRKOSTI_UNKNOWN);
    put_marker(frame, 1);
    IS(myrkosti_receive(table, SIZE, 1, frame, 124, out, sizeof out, &sent, &unread), MYRKOSTI_NOT_COLLECTING);
    put_marker(frame, 2);
    IS(myrkosti_receive(table, SIZE, 1, frame, 124, out, sizeof out, &sent, &unread), MYRKOSTI_RESPONSE);
    IS(myrkosti_fetch(table, SIZE, 1, out, sizeof out, &unread), MYRKOSTI_NOTHING_TO_SEND);
    IS(sent, 0);
    IS(memcmp(table, before, SIZE), 0);
    for (unsigned i = 0; i < sizeof out; i++) {
        IS(out[i], 0xff);
    }
}

static void hear(uint8_t *table, uint8_t port)
{
    uint8_t frame[MYRKOSTI_FRAME], out[MYRKOSTI_FRAME];
    uint32_t sent = 9;
    write_lacpdu(frame, port, field(table, port, MYRKOSTI_AT_ACTOR_STATE));
    IS(myrkosti_receive(table, SIZE, port, frame, sizeof frame, out, sizeof out, &sent, &unread), MYRKOSTI_DONE);
    IS(sent, 0);
}

/* two links to one neighbour become a trunk; a Marker is answered; the fourth LACPDU has to wait; half duplex leaves the trunk */
static void form_a_trunk(uint8_t *table)
{
    uint8_t frame[MYRKOSTI_FRAME], out[MYRKOSTI_FRAME + 1];
    uint32_t holding, attached, distributing, count, lowest, sent = 0;
    IS(myrkosti_line(table, SIZE, 1, true, true), MYRKOSTI_DONE);
    IS(myrkosti_line(table, SIZE, 2, true, true), MYRKOSTI_DONE);
    hear(table, 1);
    hear(table, 2);
    for (int i = 0; i < 20; i++) {
        IS(field(table, 2, MYRKOSTI_AT_MUX), MYRKOSTI_MUX_WAITING);
        IS(myrkosti_tick(table, SIZE), MYRKOSTI_DONE);
    }
    IS(field(table, 1, MYRKOSTI_AT_MUX), MYRKOSTI_MUX_DISTRIBUTING);
    IS(field(table, 1, MYRKOSTI_AT_ACTOR_STATE), 0x3f);
    IS(myrkosti_aggregator(table, SIZE, 1, &holding, &attached, &distributing, &count, &lowest), MYRKOSTI_DONE);
    IS(holding, 3);
    IS(attached, 3);
    IS(distributing, 3);
    IS(count, 2);
    IS(lowest, 1);
    put_marker(frame, 1);
    memset(out, 0xff, sizeof out);
    IS(myrkosti_receive(table, SIZE, 1, frame, sizeof frame, out, sizeof out, &sent, &unread), MYRKOSTI_DONE);
    IS(sent, MYRKOSTI_FRAME);
    IS(memcmp(out + 6, ADDRESS, 6), 0);
    IS(out[16], 2);
    IS(memcmp(out + 18, frame + 18, 12), 0);
    IS(out[MYRKOSTI_FRAME], 0xff);
    for (uint16_t i = 0; i < 3; i++) {
        IS(settings(table, 2, 2 + i, NOBODY), MYRKOSTI_DONE);
        IS(myrkosti_fetch(table, SIZE, 2, out, sizeof out, &unread), MYRKOSTI_DONE);
        IS(out[27], 2 + i);
        IS(out[51], 2);
        IS(out[52], field(table, 2, MYRKOSTI_AT_PARTNER + MYRKOSTI_BLOCK_STATE));
    }
    IS(settings(table, 2, 1, NOBODY), MYRKOSTI_DONE);
    IS(myrkosti_fetch(table, SIZE, 2, out, sizeof out, &unread), MYRKOSTI_TOO_MANY_SENDS);
    IS(myrkosti_line(table, SIZE, 1, true, false), MYRKOSTI_DONE);
    IS(field(table, 1, MYRKOSTI_AT_RECEIVE), MYRKOSTI_RECEIVE_LACP_DISABLED);
    IS(myrkosti_aggregator(table, SIZE, 1, &holding, &attached, &distributing, &count, &lowest), MYRKOSTI_DONE);
    IS(holding, 1);
    IS(distributing | count | lowest, 0);
}

/* the three ages of port 1, newest first */
static void check_ages(const uint8_t *table, uint8_t first, uint8_t second, uint8_t third)
{
    IS(field(table, 1, MYRKOSTI_AT_AGES), first);
    IS(field(table, 1, MYRKOSTI_AT_AGES + 1), second);
    IS(field(table, 1, MYRKOSTI_AT_AGES + 2), third);
}

/* a changed key, so that an LACPDU is due; then a fetch */
static uint32_t fetch_anew(uint8_t *table, uint16_t key)
{
    uint8_t out[MYRKOSTI_FRAME];
    IS(settings(table, 1, key, NOBODY), MYRKOSTI_DONE);
    return myrkosti_fetch(table, SIZE, 1, out, sizeof out, &unread);
}

/* three LACPDUs go, a tick apart; a fourth once eleven ticks have come after the first, a fifth once they have after the second */
static void limit_sends(void)
{
    uint8_t table[SIZE];
    IS(start(table, SIZE, PORTS, NOBODY), MYRKOSTI_DONE);
    IS(myrkosti_line(table, SIZE, 1, true, true), MYRKOSTI_DONE);
    for (uint16_t key = 2; key < 5; key++) {
        IS(fetch_anew(table, key), MYRKOSTI_DONE);
        IS(myrkosti_tick(table, SIZE), MYRKOSTI_DONE);
    }
    for (uint8_t ticks = 3; ticks <= 10; ticks++) {
        check_ages(table, ticks - 2, ticks - 1, ticks);
        IS(fetch_anew(table, 10 + ticks), MYRKOSTI_TOO_MANY_SENDS);
        IS(myrkosti_tick(table, SIZE), MYRKOSTI_DONE);
    }
    check_ages(table, 9, 10, 255);
    IS(fetch_anew(table, 5), MYRKOSTI_DONE);
    check_ages(table, 0, 9, 10);
    IS(fetch_anew(table, 6), MYRKOSTI_TOO_MANY_SENDS);
    IS(myrkosti_tick(table, SIZE), MYRKOSTI_DONE);
    IS(fetch_anew(table, 7), MYRKOSTI_DONE);
    check_ages(table, 0, 1, 10);
}

/* a stored age is 0 to 10, or 255 for none */
static void range_ages(void)
{
    uint8_t table[SIZE], before[SIZE], record[MYRKOSTI_RECORD];
    IS(start(table, SIZE, PORTS, NOBODY), MYRKOSTI_DONE);
    for (unsigned age_of = 0; age_of < 3; age_of++) {
        uint8_t *stored = table + place(PORTS, 2, MYRKOSTI_AT_AGES + age_of);
        for (unsigned age = 0; age < 256; age++) {
            *stored = (uint8_t)age;
            IS(myrkosti_port(table, SIZE, 1, record, sizeof record), age <= 10 || age == 255 ? MYRKOSTI_DONE : MYRKOSTI_TABLE_WRONG);
        }
        *stored = 11;
        memcpy(before, table, SIZE);
        IS(myrkosti_tick(table, SIZE), MYRKOSTI_TABLE_WRONG);
        IS(memcmp(table, before, SIZE), 0);
        *stored = 10;
        IS(myrkosti_tick(table, SIZE), MYRKOSTI_DONE);
        IS(*stored, 255);
    }
}

/* ---- link and duplex ---- */

/* a default partner that is in sync and aggregatable, so that a port carries at half duplex too */
static const uint8_t IN_SYNC[MYRKOSTI_BLOCK] = {0, 1, 0, 0, 0, 0, 0, 7, 0, 1, 0, 1, 0, 1, 0x3e};

struct line {
    bool up, full;
};

/* in the order in which the sixteen changes are listed, as old and as new values */
static const struct line LINES[4] = {{true, true}, {true, false}, {false, true}, {false, false}};

static uint32_t set_line(uint8_t *table, struct line line)
{
    return myrkosti_line(table, SIZE, 1, line.up, line.full);
}

static uint32_t fetch(uint8_t *table)
{
    uint8_t out[MYRKOSTI_FRAME];
    return myrkosti_fetch(table, SIZE, 1, out, sizeof out, &unread);
}

static void pass(uint8_t *table, int ticks)
{
    while (ticks-- > 0) {
        IS(myrkosti_tick(table, SIZE), MYRKOSTI_DONE);
    }
}

/* port 1 has these values: up, and it distributes; down, and it did so at full duplex until its link fell. Nothing was due then */
static void arrive(uint8_t *table, struct line line)
{
    IS(start(table, SIZE, PORTS, IN_SYNC), MYRKOSTI_DONE);
    if (line.up && !line.full) {
        IS(set_line(table, line), MYRKOSTI_DONE);
        pass(table, 20);
    } else {
        IS(set_line(table, LINES[0]), MYRKOSTI_DONE);
        hear(table, 1);
        pass(table, 20);
        IS(fetch(table), MYRKOSTI_DONE);
    }
    IS(field(table, 1, MYRKOSTI_AT_MUX), MYRKOSTI_MUX_DISTRIBUTING);
    IS(field(table, 1, MYRKOSTI_AT_NTT), 0);
    if (!line.up) {
        IS(set_line(table, line), MYRKOSTI_DONE);
    }
}

/* what a change leaves in the fields that it may touch, and what a fetch is answered then */
struct change {
    uint8_t receive, periodic, mux, ntt, state, current_while, periodic_timer, wait_timer;
    const uint8_t *system; /* the partner's */
    uint8_t partner_state;
    uint32_t fetched;
};

#define NOWHERE {0}
#define TO_LACP_DISABLED {MYRKOSTI_RECEIVE_LACP_DISABLED, MYRKOSTI_PERIODIC_NO_PERIODIC, MYRKOSTI_MUX_WAITING, 0, 0x47, 0, 0, 20, IN_SYNC + 2, 0x3a, MYRKOSTI_NOTHING_TO_SEND}
#define TO_PORT_DISABLED(ntt, state, system, partner_state) \
    {MYRKOSTI_RECEIVE_PORT_DISABLED, MYRKOSTI_PERIODIC_NO_PERIODIC, MYRKOSTI_MUX_ATTACHED, ntt, state, 0, 0, 0, system, partner_state, MYRKOSTI_NOTHING_TO_SEND}
#define TO_EXPIRED(ntt, state, system, partner_state) \
    {MYRKOSTI_RECEIVE_EXPIRED, MYRKOSTI_PERIODIC_FAST, MYRKOSTI_MUX_ATTACHED, ntt, state, 30, 10, 0, system, partner_state, ntt ? MYRKOSTI_DONE : MYRKOSTI_NOTHING_TO_SEND}

/* the rows are old values, the columns new ones */
static const struct change CHANGES[4][4] = {
    /* up, full: a fall keeps the partner, whatever the duplex; NTT, which MYRKOSTI_MUX_ATTACHED sets, stays at full duplex alone */
    {NOWHERE, TO_LACP_DISABLED, TO_PORT_DISABLED(1, 0x0f, THEIRS, 0x37), TO_PORT_DISABLED(0, 0x0f, THEIRS, 0x37)},
    /* up, half, carrying on its default block: the fall to MYRKOSTI_MUX_ATTACHED sets NTT, and at full duplex LACP is on */
    {TO_EXPIRED(1, 0xcf, IN_SYNC + 2, 0x32), NOWHERE, TO_PORT_DISABLED(1, 0x4f, IN_SYNC + 2, 0x32),
     TO_PORT_DISABLED(0, 0x4f, IN_SYNC + 2, 0x32)},
    /* down, full: what the fall made due is still due */
    {TO_EXPIRED(1, 0x8f, THEIRS, 0x37), TO_LACP_DISABLED, NOWHERE, TO_PORT_DISABLED(0, 0x0f, THEIRS, 0x37)},
    /* down, half: nothing is due, and nothing becomes so */
    {TO_EXPIRED(0, 0x8f, THEIRS, 0x37), TO_LACP_DISABLED, TO_PORT_DISABLED(0, 0x0f, THEIRS, 0x37), NOWHERE},
};

/* puts into the record what the change is to leave there */
static void put_change(uint8_t *record, struct line line, const struct change *change)
{
    record[MYRKOSTI_AT_RECEIVE] = change->receive;
    record[MYRKOSTI_AT_PERIODIC] = change->periodic;
    record[MYRKOSTI_AT_MUX] = change->mux;
    record[MYRKOSTI_AT_NTT] = change->ntt;
    record[MYRKOSTI_AT_LINK] = line.up;
    record[MYRKOSTI_AT_DUPLEX] = line.full;
    record[MYRKOSTI_AT_ACTOR_STATE] = change->state;
    record[MYRKOSTI_AT_CURRENT_WHILE + 1] = change->current_while;
    record[MYRKOSTI_AT_PERIODIC_TIMER + 1] = change->periodic_timer;
    record[MYRKOSTI_AT_WAIT_TIMER] = change->wait_timer;
    put_block(record + MYRKOSTI_AT_PARTNER, change->system, 1, change->partner_state);
}

/* from each of the four values to each: every octet of the table, the monitors' after the others, and the answer to a fetch */
static void change_lines(void)
{
    for (unsigned from = 0; from < 4; from++) {
        for (unsigned to = 0; to < 4; to++) {
            uint8_t table[SIZE], expected[SIZE];
            const struct change *change = &CHANGES[from][to];
            arrive(table, LINES[from]);
            memcpy(expected, table, SIZE);
            if (from != to) {
                put_change(expected + MYRKOSTI_HEADER, LINES[to], change);
                watch_all(expected, PORTS, false);
            }
            IS(set_line(table, LINES[to]), MYRKOSTI_DONE);
            char what[64];
            snprintf(what, sizeof what, "the table after the change from line %u to line %u", from, to);
            check(memcmp(table, expected, SIZE) == 0, what);
            if (from != to) {
                snprintf(what, sizeof what, "a fetch after the change from line %u to line %u", from, to);
                check(fetch(table) == change->fetched, what);
            }
            memcpy(expected, table, SIZE);
            IS(set_line(table, LINES[to]), MYRKOSTI_DONE);
            IS(memcmp(table, expected, SIZE), 0);
        }
    }
}

/* a port that comes up at half duplex never speaks, also where it begins to carry; at full duplex it would at once */
static void come_up_at_half_duplex(void)
{
    uint8_t table[SIZE];
    IS(start(table, SIZE, PORTS, IN_SYNC), MYRKOSTI_DONE);
    IS(field(table, 1, MYRKOSTI_AT_NTT), 1);
    IS(myrkosti_line(table, SIZE, 1, true, false), MYRKOSTI_DONE);
    IS(field(table, 1, MYRKOSTI_AT_RECEIVE), MYRKOSTI_RECEIVE_LACP_DISABLED);
    IS(field(table, 1, MYRKOSTI_AT_ACTOR_STATE), 0x47);
    for (int i = 0; i < 40; i++) {
        IS(fetch(table), MYRKOSTI_NOTHING_TO_SEND);
        pass(table, 1);
    }
    IS(field(table, 1, MYRKOSTI_AT_ACTOR_STATE), 0x7f);
    IS(start(table, SIZE, PORTS, IN_SYNC), MYRKOSTI_DONE);
    IS(myrkosti_line(table, SIZE, 1, true, true), MYRKOSTI_DONE);
    IS(fetch(table), MYRKOSTI_DONE);
}

/* up and full, then down and half: one call keeps the partner, two by way of half duplex have forgotten it */
static void fall_at_once_or_by_way_of_half_duplex(void)
{
    uint8_t once[SIZE], twice[SIZE];
    arrive(once, LINES[0]);
    memcpy(twice, once, SIZE);
    IS(myrkosti_line(once, SIZE, 1, false, false), MYRKOSTI_DONE);
    IS(field(once, 1, MYRKOSTI_AT_PARTNER + MYRKOSTI_BLOCK_SYSTEM + 5), THEIRS[5]);
    IS(field(once, 1, MYRKOSTI_AT_ACTOR_STATE) & MYRKOSTI_DEFAULTED, 0);
    IS(field(once, 1, MYRKOSTI_AT_MUX), MYRKOSTI_MUX_ATTACHED);
    IS(myrkosti_line(twice, SIZE, 1, true, false), MYRKOSTI_DONE);
    IS(myrkosti_line(twice, SIZE, 1, false, false), MYRKOSTI_DONE);
    IS(field(twice, 1, MYRKOSTI_AT_PARTNER + MYRKOSTI_BLOCK_SYSTEM + 5), IN_SYNC[7]);
    IS(field(twice, 1, MYRKOSTI_AT_ACTOR_STATE) & MYRKOSTI_DEFAULTED, MYRKOSTI_DEFAULTED);
    IS(field(twice, 1, MYRKOSTI_AT_MUX), MYRKOSTI_MUX_WAITING);
}

/*
 * Values as they are change nothing, also in a table that no run makes: a down port that distributes and churns, for which steps 2 to 6 and the monitors
 * have work.
 */
static void repeat_a_line(void)
{
    uint8_t table[SIZE], before[SIZE];
    IS(start(table, SIZE, PORTS, NOBODY), MYRKOSTI_DONE);
    table[place(PORTS, 1, MYRKOSTI_AT_MUX)] = MYRKOSTI_MUX_DISTRIBUTING;
    table[place(PORTS, 1, MYRKOSTI_AT_PARTNER_CHURN)] = MYRKOSTI_CHURN;
    memcpy(before, table, SIZE);
    IS(myrkosti_line(table, SIZE, 1, false, true), MYRKOSTI_DONE);
    IS(memcmp(table, before, SIZE), 0);
    IS(myrkosti_line(table, SIZE, 2, true, true), MYRKOSTI_DONE);
    IS(field(table, 1, MYRKOSTI_AT_MUX), MYRKOSTI_MUX_ATTACHED);
    IS(field(table, 1, MYRKOSTI_AT_PARTNER_CHURN), MYRKOSTI_CHURN_MONITOR);
}

/* ---- what is due ---- */

enum { LARGEST = MYRKOSTI_TABLE(MYRKOSTI_PORTS) };

/* the answer, and the set in *ports, beside which nothing is written and no octet of the table changes */
static uint32_t ask_due(const uint8_t *table, size_t length, uint32_t *ports)
{
    uint8_t before[LARGEST];
    uint32_t written[3] = {7, 0xffffffff, 7};
    memcpy(before, table, length);
    uint32_t answer = myrkosti_due(table, length, &written[1]);
    IS(memcmp(table, before, length), 0);
    IS(written[0], 7);
    IS(written[2], 7);
    *ports = written[1];
    return answer;
}

/* the set, which must be that of the ports on which a fetch, tried on a copy, is answered 0 */
static uint32_t due(const uint8_t *table, uint32_t count)
{
    uint8_t copy[LARGEST], out[MYRKOSTI_FRAME];
    uint32_t ports, fetched = 0;
    IS(ask_due(table, MYRKOSTI_TABLE(count), &ports), MYRKOSTI_DONE);
    for (uint32_t port = 1; port <= count; port++) {
        memcpy(copy, table, MYRKOSTI_TABLE(count));
        if (myrkosti_fetch(copy, MYRKOSTI_TABLE(count), port, out, sizeof out, &unread) == MYRKOSTI_DONE) {
            fetched |= 1u << (port - 1);
        }
    }
    IS(ports, fetched);
    return ports;
}

static void refuse_due(const uint8_t *table, size_t length)
{
    uint8_t record[MYRKOSTI_RECORD];
    uint32_t ports;
    IS(myrkosti_port(table, length, 1, record, sizeof record), MYRKOSTI_TABLE_WRONG);
    IS(ask_due(table, length, &ports), MYRKOSTI_TABLE_WRONG);
    IS(ports, 0);
}

static const struct wrong_octet OUT_OF_RANGE[] = OUT_OF_RANGE_OF(PORTS);

/* no table, no set, though both ports had something to send: another size, another port count, and each field of each port */
static void refuse_to_say_what_is_due(void)
{
    uint8_t table[SIZE + 1] = {0}, broken[SIZE];
    IS(start(table, SIZE, PORTS, NOBODY), MYRKOSTI_DONE);
    IS(myrkosti_line(table, SIZE, 1, true, true), MYRKOSTI_DONE);
    IS(myrkosti_line(table, SIZE, 2, true, true), MYRKOSTI_DONE);
    IS(due(table, PORTS), 3);
    refuse_due(table, 0);
    refuse_due(table, MYRKOSTI_HEADER - 1);
    refuse_due(table, MYRKOSTI_TABLE(1));
    refuse_due(table, place(PORTS, 1, FRONT));
    refuse_due(table, place(PORTS, 2, FRONT));
    refuse_due(table, place(PORTS, 1, BEHIND));
    refuse_due(table, place(PORTS, 2, BEHIND));
    refuse_due(table, SIZE - 1);
    refuse_due(table, SIZE + 1);
    for (unsigned count = 0; count < 256; count++) {
        memcpy(broken, table, SIZE);
        broken[0] = (uint8_t)count;
        if (count != PORTS) {
            refuse_due(broken, SIZE);
        }
    }
    for (unsigned i = 0; i < sizeof OUT_OF_RANGE / sizeof OUT_OF_RANGE[0]; i++) {
        for (uint32_t port = 1; port <= PORTS; port++) {
            memcpy(broken, table, SIZE);
            broken[place(PORTS, port, OUT_OF_RANGE[i].at)] = OUT_OF_RANGE[i].octet;
            refuse_due(broken, SIZE);
        }
    }
}

/* nothing without a link or at half duplex; once for each thing to say; and not while three sends bar a fourth */
static void say_what_is_due(void)
{
    uint8_t table[SIZE];
    IS(start(table, SIZE, PORTS, NOBODY), MYRKOSTI_DONE);
    IS(due(table, PORTS), 0);
    IS(myrkosti_line(table, SIZE, 2, true, true), MYRKOSTI_DONE);
    IS(due(table, PORTS), 2);
    IS(myrkosti_line(table, SIZE, 1, true, true), MYRKOSTI_DONE);
    IS(due(table, PORTS), 3);
    IS(myrkosti_line(table, SIZE, 2, true, false), MYRKOSTI_DONE);
    IS(due(table, PORTS), 1);
    for (uint16_t key = 2; key < 5; key++) {
        IS(settings(table, 1, key, NOBODY), MYRKOSTI_DONE);
        IS(due(table, PORTS), 1);
        IS(fetch(table), MYRKOSTI_DONE);
        IS(due(table, PORTS), 0);
    }
    IS(settings(table, 1, 5, NOBODY), MYRKOSTI_DONE);
    for (int ticks = 0; ticks < 11; ticks++) {
        IS(fetch(table), MYRKOSTI_TOO_MANY_SENDS);
        IS(due(table, PORTS), 0);
        pass(table, 1);
    }
    IS(due(table, PORTS), 1);
    IS(myrkosti_line(table, SIZE, 1, false, true), MYRKOSTI_DONE);
    IS(due(table, PORTS), 0);
}

/* NTT, link, duplex, and for each of the three ages whether there is one, by the bits of a number below 64 */
static void put_what_due_looks_at(uint8_t *record, unsigned bits)
{
    record[MYRKOSTI_AT_NTT] = bits & 1;
    record[MYRKOSTI_AT_LINK] = bits >> 1 & 1;
    record[MYRKOSTI_AT_DUPLEX] = bits >> 2 & 1;
    for (unsigned i = 0; i < 3; i++) {
        record[MYRKOSTI_AT_AGES + i] = bits >> (3 + i) & 1 ? (uint8_t)(5 * i) : 255;
    }
}

/* whatever two ports have in the fields that count, also in tables that no run makes: a gap between ages, NTT at half duplex */
static void say_what_is_due_in_any_table(void)
{
    uint8_t table[SIZE];
    IS(start(table, SIZE, PORTS, NOBODY), MYRKOSTI_DONE);
    for (unsigned both = 0; both < 64 * 64; both++) {
        uint32_t expected = 0;
        for (uint32_t port = 1; port <= PORTS; port++) {
            unsigned bits = port == 1 ? both % 64 : both / 64;
            put_what_due_looks_at(table + place(PORTS, port, 0), bits);
            if (bits % 8 == 7 && bits / 8 != 7) {
                expected |= 1u << (port - 1);
            }
        }
        IS(due(table, PORTS), expected);
    }
}

/* the first port is bit 0 and the last bit 31 */
static void say_what_is_due_on_32_ports(void)
{
    uint8_t table[LARGEST], out[MYRKOSTI_FRAME];
    IS(start(table, LARGEST, MYRKOSTI_PORTS, NOBODY), MYRKOSTI_DONE);
    for (uint32_t port = MYRKOSTI_PORTS; port > 0; port--) {
        IS(myrkosti_line(table, LARGEST, port, true, true), MYRKOSTI_DONE);
        IS(due(table, MYRKOSTI_PORTS), 0xffffffffu << (port - 1));
    }
    for (uint32_t port = 1; port < MYRKOSTI_PORTS; port++) {
        IS(myrkosti_fetch(table, LARGEST, port, out, sizeof out, &unread), MYRKOSTI_DONE);
        IS(due(table, MYRKOSTI_PORTS), 0xffffffffu << port);
    }
    IS(myrkosti_fetch(table, LARGEST, MYRKOSTI_PORTS, out, sizeof out, &unread), MYRKOSTI_DONE);
    IS(due(table, MYRKOSTI_PORTS), 0);
}

/* ---- the memory lent for a record ---- */

/* memory of this length holds what fits of the expected record, from the front; what is beyond it or beyond the memory stays */
static void lend(const uint8_t *table, uint32_t port, size_t length, uint32_t answer, const uint8_t expected[MYRKOSTI_RECORD])
{
    uint8_t memory[3 * MYRKOSTI_RECORD];
    memset(memory, 0xa5, sizeof memory);
    IS(myrkosti_port(table, SIZE, port, memory + MYRKOSTI_RECORD, length), answer);
    for (size_t i = 0; i < sizeof memory; i++) {
        const size_t at = i - MYRKOSTI_RECORD; /* wraps before the memory lent */
        IS(memory[i], at < length && at < MYRKOSTI_RECORD ? expected[at] : 0xa5);
    }
}

static void lend_any_length(void)
{
    static const uint8_t zeros[MYRKOSTI_RECORD];
    uint8_t table[SIZE], broken[SIZE], first[MYRKOSTI_RECORD], second[MYRKOSTI_RECORD];
    arrive(table, LINES[0]);
    for (size_t at = MYRKOSTI_AT_ACTOR_CHURN_COUNT; at < MYRKOSTI_RECORD; at++) {
        if (at < MYRKOSTI_AT_MARKER || at >= MYRKOSTI_AT_MARKER_NUMBER) {
            table[place(PORTS, 1, at)] = (uint8_t)(0x10 + at); /* so that no two ports and no two octets of a number are alike */
            table[place(PORTS, 2, at)] = (uint8_t)(0x80 + at);
        }
    }
    for (uint32_t port = 1; port <= PORTS; port++) {
        table[place(PORTS, port, MYRKOSTI_AT_MARKER)] = (uint8_t)(MYRKOSTI_MARKER_AWAITING + port);
        myrkosti_put_number(table + place(PORTS, port, MYRKOSTI_AT_MARKER_TIMER), (uint16_t)(0x0120 + port));
    }
    gather(table, PORTS, 1, first);
    gather(table, PORTS, 2, second);
    memcpy(broken, table, SIZE);
    broken[place(PORTS, 1, MYRKOSTI_AT_MUX)] = MYRKOSTI_MUX_DISTRIBUTING + 1;
    for (size_t length = 0; length <= 2 * MYRKOSTI_RECORD; length++) {
        lend(table, 1, length, MYRKOSTI_DONE, first);
        lend(table, 2, length, MYRKOSTI_DONE, second);
        lend(table, 3, length, MYRKOSTI_NO_SUCH_PORT, zeros);
        lend(broken, 1, length, MYRKOSTI_TABLE_WRONG, zeros);
    }
}

int main(void)
{
    uint8_t table[SIZE];
    refuse_tables();
    memset(table, 0xa5, sizeof table);
    IS(start(table, SIZE, PORTS, NOBODY), MYRKOSTI_DONE);
    refuse_arguments(table);
    form_a_trunk(table);
    limit_sends();
    range_ages();
    change_lines();
    come_up_at_half_duplex();
    fall_at_once_or_by_way_of_half_duplex();
    repeat_a_line();
    refuse_to_say_what_is_due();
    say_what_is_due();
    say_what_is_due_in_any_table();
    say_what_is_due_on_32_ports();
    lend_any_length();
    return finish("C interface");
}
