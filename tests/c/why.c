/*
 * The two reports that say why, through include/myrkosti.h: why a port does not carry (myrkosti_why), and why two ports are apart (myrkosti_apart). Each cause
 * and each reason by what leads to it, along random runs and in any memory. What they must say is computed here from the records that myrkosti_port gives.
 * Prints one line for each check that fails, and how many passed.
 */
#include "myrkosti.h"

#include "any.h"
#include "check.h"
#include "layout.h"
#include "neighbour.h"
#include "ranges.h"
#include "unread.h"

#include <string.h>

enum { PORTS = 5, SIZE = MYRKOSTI_TABLE(PORTS), LARGEST = MYRKOSTI_TABLE(MYRKOSTI_PORTS), WAIT = 20, SHORT = 30, KEY = 7, THEIR_KEY = 70 };
enum { CAUSES = MYRKOSTI_PARTNER_NOT_COLLECTING + 1, ALL_REASONS = 0x3ff };
enum { UNTOUCHED = 0x5aa55aa5 };

static const uint8_t ADDRESS[6] = {0x02, 0x00, 0x5e, 0x10, 0x20, 0x30};
static const struct myrkosti_system THEM = {{2, 0, 0, 0, 0, 5}, 32768, 0}, OTHERS = {{2, 0, 0, 0, 0, 6}, 32768, 0};

/* what a neighbour may say of itself: active, short timeout, aggregatable; then in sync; then collecting too */
enum { WILLING = 0x07, IN_SYNC = 0x0f, READY = 0x1f };

static uint8_t table[SIZE];

/* ---- the two reports, each with its outgoing numbers between others that must stay ---- */

struct why {
    uint32_t answer, cause, holder, ticks;
};

static struct why why_in(const uint8_t *memory, size_t length, uint32_t port)
{
    uint32_t out[7];
    for (unsigned i = 0; i < 7; i++)
        out[i] = UNTOUCHED;
    const uint32_t answer = myrkosti_why(memory, length, port, &out[1], &out[3], &out[5]);
    check(out[0] == UNTOUCHED && out[2] == UNTOUCHED && out[4] == UNTOUCHED && out[6] == UNTOUCHED, "why writes its three numbers");
    return (struct why){answer, out[1], out[3], out[5]};
}

struct apart {
    uint32_t answer, reasons;
};

static struct apart apart_in(const uint8_t *memory, size_t length, uint32_t first, uint32_t second)
{
    uint32_t out[3] = {UNTOUCHED, UNTOUCHED, UNTOUCHED};
    const uint32_t answer = myrkosti_apart(memory, length, first, second, &out[1]);
    check(out[0] == UNTOUCHED && out[2] == UNTOUCHED, "apart writes its one number");
    return (struct apart){answer, out[1]};
}

static bool same_why(struct why a, struct why b)
{
    return a.answer == b.answer && a.cause == b.cause && a.holder == b.holder && a.ticks == b.ticks;
}

/* answered 0, with this cause and these two numbers beside it */
#define WHY(port, cause, holder, ticks) \
    check(same_why(why_in(table, SIZE, port), (struct why){MYRKOSTI_DONE, cause, holder, ticks}), \
          "port " #port " has " #cause ", holder " #holder ", ticks " #ticks)

/* answered 0, with these reasons; the other way round the same, with first and second exchanged */
#define APART(first, second, reasons) \
    check(reasons_are(first, second, reasons), "ports " #first " and " #second " are apart by " #reasons)

static uint32_t exchanged(uint32_t reasons)
{
    const uint32_t of_first = MYRKOSTI_FIRST_INDIVIDUAL | MYRKOSTI_FIRST_PARTNER_INDIVIDUAL | MYRKOSTI_FIRST_LOOPED;
    return (reasons & of_first) << 3 | (reasons >> 3 & of_first) | (reasons & ~(of_first << 3 | of_first));
}

static bool reasons_are(uint32_t first, uint32_t second, uint32_t reasons)
{
    const struct apart there = apart_in(table, SIZE, first, second), back = apart_in(table, SIZE, second, first);
    return there.answer == MYRKOSTI_DONE && back.answer == MYRKOSTI_DONE && there.reasons == reasons && back.reasons == exchanged(reasons);
}

/* ---- what they must say, from the records alone ---- */

/* the records of a table as the library reports them, from 1 */
static void read_all(const uint8_t *memory, uint32_t ports, uint8_t (*records)[MYRKOSTI_RECORD])
{
    for (uint32_t port = 1; port <= ports; port++) {
        IS(myrkosti_port(memory, myrkosti_table_size(ports), port, records[port], MYRKOSTI_RECORD), MYRKOSTI_DONE);
    }
}

/* the port that waits longest for this aggregator, the lowest of several, and its ticks; zeros for none */
static struct why longest(uint32_t ports, uint8_t (*records)[MYRKOSTI_RECORD], uint8_t aggregator)
{
    struct why found = {MYRKOSTI_DONE, MYRKOSTI_HELD_BACK, 0, 0};
    for (uint32_t port = 1; port <= ports; port++) {
        const uint8_t *const r = records[port];
        if (r[MYRKOSTI_AT_MUX] == MYRKOSTI_MUX_WAITING && r[MYRKOSTI_AT_AGGREGATOR] == aggregator && r[MYRKOSTI_AT_WAIT_TIMER] > found.ticks) {
            found.holder = port;
            found.ticks = r[MYRKOSTI_AT_WAIT_TIMER];
        }
    }
    return found;
}

static struct why expected_why(uint32_t ports, uint8_t (*records)[MYRKOSTI_RECORD], uint32_t port)
{
    const uint8_t *const r = records[port];
    const uint8_t receive = r[MYRKOSTI_AT_RECEIVE], partner = r[MYRKOSTI_AT_PARTNER + MYRKOSTI_BLOCK_STATE];
    const bool waits = r[MYRKOSTI_AT_MUX] == MYRKOSTI_MUX_WAITING;
    const struct why held = longest(ports, records, r[MYRKOSTI_AT_AGGREGATOR]);
    uint32_t cause = MYRKOSTI_NO_CAUSE;
    if (r[MYRKOSTI_AT_MUX] == MYRKOSTI_MUX_DISTRIBUTING)
        cause = receive == MYRKOSTI_RECEIVE_LACP_DISABLED || receive == MYRKOSTI_RECEIVE_DEFAULTED ? MYRKOSTI_CARRIES_BY_DEFAULT : MYRKOSTI_CARRIES;
    else if (r[MYRKOSTI_AT_LINK] == 0)
        cause = MYRKOSTI_LINK_DOWN;
    else if (r[MYRKOSTI_AT_DUPLEX] == 0)
        cause = MYRKOSTI_HALF_DUPLEX;
    else if (receive == MYRKOSTI_RECEIVE_DEFAULTED)
        cause = MYRKOSTI_IS_DEFAULTED;
    else if (receive == MYRKOSTI_RECEIVE_EXPIRED)
        cause = MYRKOSTI_IS_EXPIRED;
    else if (waits && r[MYRKOSTI_AT_WAIT_TIMER] != 0)
        return (struct why){MYRKOSTI_DONE, MYRKOSTI_WAITS, 0, r[MYRKOSTI_AT_WAIT_TIMER]};
    else if (waits && held.holder != 0)
        return held;
    else if ((partner & MYRKOSTI_SYNCHRONIZATION) == 0)
        cause = MYRKOSTI_OUT_OF_SYNC;
    else if ((partner & MYRKOSTI_COLLECTING) == 0)
        cause = MYRKOSTI_PARTNER_NOT_COLLECTING;
    return (struct why){MYRKOSTI_DONE, cause, 0, 0};
}

/* why the port with this record is individual, by the bits of a first port; the system of ours is octets 1 to 8 of the table */
static uint32_t alone(const uint8_t *memory, const uint8_t *r)
{
    const uint8_t *const partner = r + MYRKOSTI_AT_PARTNER;
    uint32_t reasons = 0;
    if ((r[MYRKOSTI_AT_ACTOR_STATE] & MYRKOSTI_AGGREGATION) == 0)
        reasons |= MYRKOSTI_FIRST_INDIVIDUAL;
    if ((partner[MYRKOSTI_BLOCK_STATE] & MYRKOSTI_AGGREGATION) == 0)
        reasons |= MYRKOSTI_FIRST_PARTNER_INDIVIDUAL;
    if (memcmp(partner + MYRKOSTI_BLOCK_SYSTEM_PRIORITY, memory + 1, 8) == 0)
        reasons |= MYRKOSTI_FIRST_LOOPED;
    return reasons;
}

static uint32_t expected_reasons(const uint8_t *memory, uint8_t (*records)[MYRKOSTI_RECORD], uint32_t first, uint32_t second)
{
    const uint8_t *const a = records[first], *const b = records[second];
    const uint8_t *const p = a + MYRKOSTI_AT_PARTNER, *const q = b + MYRKOSTI_AT_PARTNER;
    uint32_t reasons = alone(memory, a) | exchanged(alone(memory, b));
    if (first == second)
        return 0;
    if (memcmp(a + MYRKOSTI_AT_KEY, b + MYRKOSTI_AT_KEY, 2) != 0)
        reasons |= MYRKOSTI_KEYS_DIFFER;
    if (memcmp(p + MYRKOSTI_BLOCK_SYSTEM_PRIORITY, q + MYRKOSTI_BLOCK_SYSTEM_PRIORITY, 2) != 0)
        reasons |= MYRKOSTI_PARTNER_PRIORITIES_DIFFER;
    if (memcmp(p + MYRKOSTI_BLOCK_SYSTEM, q + MYRKOSTI_BLOCK_SYSTEM, 6) != 0)
        reasons |= MYRKOSTI_PARTNER_SYSTEMS_DIFFER;
    if (memcmp(p + MYRKOSTI_BLOCK_KEY, q + MYRKOSTI_BLOCK_KEY, 2) != 0)
        reasons |= MYRKOSTI_PARTNER_KEYS_DIFFER;
    return reasons;
}

/* R10 in one piece, beside the reasons: system, address and key of a partner stand in one row, and so do those of a system of ours */
static bool one_group(const uint8_t *memory, uint8_t (*records)[MYRKOSTI_RECORD], uint32_t first, uint32_t second)
{
    const uint8_t *const a = records[first], *const b = records[second];
    const bool together = (a[MYRKOSTI_AT_ACTOR_STATE] & a[MYRKOSTI_AT_PARTNER + MYRKOSTI_BLOCK_STATE] & b[MYRKOSTI_AT_ACTOR_STATE] &
                           b[MYRKOSTI_AT_PARTNER + MYRKOSTI_BLOCK_STATE] & MYRKOSTI_AGGREGATION) != 0;
    return first == second || (together && memcmp(a + MYRKOSTI_AT_KEY, b + MYRKOSTI_AT_KEY, 2) == 0 &&
                               memcmp(a + MYRKOSTI_AT_PARTNER, b + MYRKOSTI_AT_PARTNER, MYRKOSTI_BLOCK_PORT_PRIORITY) == 0 &&
                               memcmp(a + MYRKOSTI_AT_PARTNER, memory + 1, 8) != 0);
}

/* ---- both reports of every port of a table against that ---- */

/* which causes and which reasons were seen, and reasons that were seen missing from a set that has others */
static unsigned causes_seen[CAUSES];
static uint32_t reasons_seen, reasons_missed;

static void see(struct why why, uint32_t reasons)
{
    if (why.cause < CAUSES)
        causes_seen[why.cause]++;
    reasons_seen |= reasons;
    if (reasons != 0)
        reasons_missed |= ALL_REASONS & ~reasons;
}

/* the ports that distribute, by the reports of all aggregators */
static uint32_t distributing(const uint8_t *memory, uint32_t ports)
{
    uint32_t all = 0, holding, attached, of_one, count, lowest;
    for (uint32_t aggregator = 1; aggregator <= ports; aggregator++) {
        IS(myrkosti_aggregator(memory, myrkosti_table_size(ports), aggregator, &holding, &attached, &of_one, &count, &lowest), MYRKOSTI_DONE);
        all |= of_one;
    }
    return all;
}

/* of a table in range: both are what the records say, 'carries' is the distributing set, and the table stays; `made`: by calls, where a cause is always given,
   and ports of one group hold one aggregator */
static void hold(const uint8_t *memory, uint32_t ports, bool made)
{
    static uint8_t before[LARGEST], records[MYRKOSTI_PORTS + 1][MYRKOSTI_RECORD];
    const size_t size = myrkosti_table_size(ports);
    memcpy(before, memory, size);
    read_all(memory, ports, records);
    const uint32_t carrying = distributing(memory, ports);
    for (uint32_t port = 1; port <= ports; port++) {
        const struct why why = why_in(memory, size, port);
        check(same_why(why, expected_why(ports, records, port)), "why is what the records say");
        check(myrkosti_is_carrying(why.cause) == ((carrying >> (port - 1) & 1) != 0), "carries exactly if the aggregator's report has it");
        check(!made || why.cause != MYRKOSTI_NO_CAUSE, "a made table has a cause for every port");
        for (uint32_t other = 1; other <= ports; other++) {
            const struct apart apart = apart_in(memory, size, port, other);
            check(apart.answer == MYRKOSTI_DONE && apart.reasons == expected_reasons(memory, records, port, other), "apart is what the records say");
            check((apart.reasons == 0) == one_group(memory, records, port, other), "apart is empty exactly if they share a group");
            check(!made || (apart.reasons == 0) == (records[port][MYRKOSTI_AT_AGGREGATOR] == records[other][MYRKOSTI_AT_AGGREGATOR]),
                  "ports of one group hold one aggregator, and others do not");
            see(why, apart.reasons);
        }
    }
    IS(memcmp(memory, before, size), 0);
}

/* ---- a switch and its neighbours ---- */

static struct myrkosti_system us(void)
{
    return myrkosti_usual_system(ADDRESS);
}

static struct myrkosti_port_settings usual(void)
{
    return myrkosti_usual_settings(ADDRESS, KEY);
}

static uint32_t start_in(uint8_t *memory, size_t length, uint32_t ports)
{
    const struct myrkosti_system system = us();
    const struct myrkosti_port_settings settings = usual();
    return myrkosti_start_with(memory, length, ports, &system, &settings);
}

static void start(void)
{
    memset(table, 0xa5, SIZE);
    IS(start_in(table, SIZE, PORTS), MYRKOSTI_DONE);
}

static void set(uint32_t port, struct myrkosti_port_settings settings)
{
    IS(myrkosti_settings_with(table, SIZE, port, &settings), MYRKOSTI_DONE);
}

static void line(uint32_t port, bool up, bool full)
{
    IS(myrkosti_line(table, SIZE, port, up, full), MYRKOSTI_DONE);
}

static void pass(int ticks)
{
    while (ticks-- > 0) {
        IS(myrkosti_tick(table, SIZE), MYRKOSTI_DONE);
    }
}

/* an LACPDU on a port, of a neighbour's port with the same number, key and state; it heard us, or nobody */
static void hear_from(uint32_t port, const struct myrkosti_system *who, uint16_t key, uint8_t state, bool heard)
{
    const struct myrkosti_system system = us();
    uint8_t frame[MYRKOSTI_FRAME], theirs[MYRKOSTI_BLOCK], ours[MYRKOSTI_BLOCK] = {0}, out[MYRKOSTI_FRAME], record[MYRKOSTI_RECORD];
    uint32_t sent;
    gather(table, PORTS, port, record);
    put_ours(theirs, who, (uint16_t)port, record);
    myrkosti_put_number(theirs + MYRKOSTI_BLOCK_KEY, key);
    theirs[MYRKOSTI_BLOCK_STATE] = state;
    if (heard)
        put_ours(ours, &system, (uint16_t)port, record);
    put_lacpdu(frame, theirs, ours);
    const uint32_t answer = myrkosti_receive(table, SIZE, port, frame, sizeof frame, out, sizeof out, &sent, &unread);
    check(answer == MYRKOSTI_DONE || answer == MYRKOSTI_LACP_OFF, "an LACPDU is taken, or LACP is off");
}

static void hear(uint32_t port, uint8_t state)
{
    hear_from(port, &THEM, THEIR_KEY, state, true);
}

/* ports 1 to `last` come up and are heard; 20 ticks later they are a trunk */
static void form(uint32_t last)
{
    start();
    for (uint32_t port = 1; port <= last; port++) {
        line(port, true, true);
        hear(port, READY);
    }
    pass(WAIT);
    for (uint32_t port = 1; port <= last; port++) {
        WHY(port, MYRKOSTI_CARRIES, 0, 0);
        APART(1, port, 0);
    }
    hold(table, PORTS, true);
}

/* ---- each cause by what leads to it ---- */

/* without a link, then with one and unheard, and heard in a partner's own order: in sync, and collecting */
static void from_start_to_carrying(void)
{
    start();
    WHY(1, MYRKOSTI_LINK_DOWN, 0, 0);
    line(1, true, true);
    for (int ticks = 0; ticks < SHORT; ticks++) {
        WHY(1, MYRKOSTI_IS_EXPIRED, 0, 0); /* also while its wait timer runs: a silent partner is what a person can act on */
        pass(1);
    }
    WHY(1, MYRKOSTI_IS_DEFAULTED, 0, 0);
    pass(100);
    WHY(1, MYRKOSTI_IS_DEFAULTED, 0, 0);
    hear(1, WILLING);
    for (uint32_t left = WAIT; left > 0; left--) {
        WHY(1, MYRKOSTI_WAITS, 0, left);
        pass(1);
    }
    WHY(1, MYRKOSTI_OUT_OF_SYNC, 0, 0);
    hear(1, IN_SYNC);
    WHY(1, MYRKOSTI_PARTNER_NOT_COLLECTING, 0, 0);
    hear(1, READY);
    WHY(1, MYRKOSTI_CARRIES, 0, 0);
    hold(table, PORTS, true);
}

/* each event that takes a port out of its trunk, and the cause that is named after it */
static void out_of_the_trunk(void)
{
    struct myrkosti_port_settings settings = usual();
    settings.key++;
    form(2);
    line(2, false, true);
    WHY(2, MYRKOSTI_LINK_DOWN, 0, 0);
    form(2);
    line(2, true, false);
    WHY(2, MYRKOSTI_HALF_DUPLEX, 0, 0);
    form(2);
    set(2, settings);
    WHY(2, MYRKOSTI_WAITS, 0, WAIT);
    form(2);
    hear(2, WILLING);
    WHY(2, MYRKOSTI_OUT_OF_SYNC, 0, 0);
    form(2);
    hear(2, IN_SYNC);
    WHY(2, MYRKOSTI_PARTNER_NOT_COLLECTING, 0, 0);
    form(2);
    hear_from(2, &THEM, THEIR_KEY, READY, false); /* it says that it is in sync, with somebody else */
    WHY(2, MYRKOSTI_OUT_OF_SYNC, 0, 0);
    form(2);
    hear_from(2, &THEM, THEIR_KEY + 1, READY, true);
    WHY(2, MYRKOSTI_WAITS, 0, WAIT);
    form(2);
    hear_from(2, &OTHERS, THEIR_KEY, READY, true);
    WHY(2, MYRKOSTI_WAITS, 0, WAIT);
    WHY(1, MYRKOSTI_CARRIES, 0, 0);
}

/* a link that is silent: EXPIRED at the 30th tick after the last frame, DEFAULTED at the 60th; the other goes on */
static void silence(void)
{
    form(2);
    hear(2, READY);
    for (int ticks = 1; ticks <= 2 * SHORT + 5; ticks++) {
        hear(1, READY);
        pass(1);
        if (ticks < SHORT)
            WHY(2, MYRKOSTI_CARRIES, 0, 0);
        else if (ticks < 2 * SHORT)
            WHY(2, MYRKOSTI_IS_EXPIRED, 0, 0);
        else
            WHY(2, MYRKOSTI_IS_DEFAULTED, 0, 0);
        WHY(1, MYRKOSTI_CARRIES, 0, 0);
    }
}

/* a default block in sync and collecting lets a port carry unheard, and at half duplex: it says so. Once the partner is heard it carries by that one's word */
static void on_its_settings_alone(void)
{
    struct myrkosti_port_settings settings = usual();
    settings.partner[MYRKOSTI_BLOCK_STATE] = MYRKOSTI_TIMEOUT | MYRKOSTI_SYNCHRONIZATION | MYRKOSTI_COLLECTING;
    start();
    set(1, settings);
    set(2, settings);
    line(1, true, true);
    line(2, true, false);
    pass(WAIT - 1);
    WHY(1, MYRKOSTI_IS_EXPIRED, 0, 0);
    WHY(2, MYRKOSTI_HALF_DUPLEX, 0, 0);
    pass(1);
    WHY(2, MYRKOSTI_CARRIES_BY_DEFAULT, 0, 0);
    pass(SHORT - WAIT);
    WHY(1, MYRKOSTI_CARRIES_BY_DEFAULT, 0, 0);
    IS(myrkosti_is_carrying(why_in(table, SIZE, 1).cause), true);
    hold(table, PORTS, true);
    hear(1, READY);
    pass(WAIT);
    WHY(1, MYRKOSTI_CARRIES, 0, 0);
    WHY(2, MYRKOSTI_CARRIES_BY_DEFAULT, 0, 0);
}

/* a cause before another: each pair of neighbours in the order where both hold, by links and duplexes of silent and of waiting ports */
static void the_first_that_applies(void)
{
    start();
    line(1, false, false); /* down and half */
    WHY(1, MYRKOSTI_LINK_DOWN, 0, 0);
    line(1, true, false); /* half, and a wait timer that runs, and a partner out of sync */
    WHY(1, MYRKOSTI_HALF_DUPLEX, 0, 0);
    line(1, true, true); /* silent, and a wait timer that runs */
    WHY(1, MYRKOSTI_IS_EXPIRED, 0, 0);
    pass(SHORT);
    struct myrkosti_port_settings settings = usual();
    settings.key++;
    set(1, settings); /* not heard, and a wait timer that runs */
    WHY(1, MYRKOSTI_IS_DEFAULTED, 0, 0);
    hear(1, WILLING); /* a wait timer that runs, and a partner out of sync */
    WHY(1, MYRKOSTI_WAITS, 0, WAIT);
}

/* ---- held back ---- */

/* port 1 was heard at tick 0 and the others when it says: what each is told at tick `now`, until the last of them is ready */
static void told_while_waiting(const int *heard_at, uint32_t ports, int now)
{
    uint32_t holder = 0, ticks = 0;
    for (uint32_t port = 1; port <= ports; port++) {
        const int left = heard_at[port - 1] + WAIT - now;
        if (left <= WAIT && left > (int)ticks) {
            holder = port;
            ticks = (uint32_t)left;
        }
    }
    for (uint32_t port = 1; port <= ports; port++) {
        const int left = heard_at[port - 1] + WAIT - now;
        if (left > WAIT)
            WHY(port, MYRKOSTI_LINK_DOWN, 0, 0);
        else if (left > 0)
            WHY(port, MYRKOSTI_WAITS, 0, (uint32_t)left);
        else
            WHY(port, MYRKOSTI_HELD_BACK, holder, ticks);
    }
}

/* ports that are heard at different ticks wait for the last of them: who that is and how long it takes, tick by tick until the trunk forms */
static void held_back(const int *heard_at, uint32_t ports)
{
    int last = 0;
    for (uint32_t port = 1; port <= ports; port++)
        last = heard_at[port - 1] > last ? heard_at[port - 1] : last;
    start();
    for (int now = 0; now < last + WAIT; now++) {
        for (uint32_t port = 1; port <= ports; port++) {
            if (now == heard_at[port - 1])
                line(port, true, true);
            if (now >= heard_at[port - 1])
                hear(port, READY);
        }
        told_while_waiting(heard_at, ports, now);
        hold(table, PORTS, true);
        pass(1);
    }
    for (uint32_t port = 1; port <= ports; port++) {
        WHY(port, MYRKOSTI_CARRIES, 0, 0);
    }
}

/* one port alone; then the highest is the last, one in the middle, two alike, and all five */
static void who_holds_back(void)
{
    static const int HEARD_AT[][PORTS] = {{0}, {0, 5, 9}, {0, 9, 5}, {0, 9, 9}, {0, 19, 3, 19, 19}, {0, 3, 19, 19, 18}, {0, 1, 2, 3, 4}, {0, 4, 3, 2, 1}};
    static const uint32_t COUNTS[] = {1, 3, 3, 3, 5, 5, 5, 5};
    for (unsigned i = 0; i < sizeof COUNTS / sizeof COUNTS[0]; i++)
        held_back(HEARD_AT[i], COUNTS[i]);
}

/* 'so many ticks more' is exact whenever it is asked: so many later, and no sooner, the port carries. Only somebody who comes in makes it longer */
static void so_many_more(void)
{
    uint8_t from[SIZE];
    start();
    line(1, true, true);
    hear(1, READY);
    pass(12);
    line(3, true, true);
    hear(3, READY);
    pass(8);
    WHY(1, MYRKOSTI_HELD_BACK, 3, 12);
    pass(2);
    line(5, true, true);
    for (uint32_t port = 1; port <= 5; port += 2)
        hear(port, READY);
    WHY(1, MYRKOSTI_HELD_BACK, 5, WAIT);
    for (uint32_t later = 0; later < WAIT; later++) {
        memcpy(from, table, SIZE);
        WHY(1, MYRKOSTI_HELD_BACK, 5, WAIT - later);
        for (uint32_t ticks = why_in(table, SIZE, 1).ticks; ticks > 0; ticks--) {
            IS(distributing(table, PORTS), 0);
            pass(1);
        }
        WHY(1, MYRKOSTI_CARRIES, 0, 0);
        IS(distributing(table, PORTS), 0x15);
        memcpy(table, from, SIZE);
        pass(1);
    }
}

/* the lowest port comes in last: the trunk goes to its aggregator, and all wait anew; nobody is held back */
static void all_wait_anew(void)
{
    start();
    line(2, true, true);
    hear(2, READY);
    pass(15);
    line(1, true, true);
    hear(1, READY);
    WHY(1, MYRKOSTI_WAITS, 0, WAIT);
    WHY(2, MYRKOSTI_WAITS, 0, WAIT);
}

/* a port whose link is down waits too, and holds others back: it is named, and its own cause is its link */
static void held_back_by_a_down_port(void)
{
    struct myrkosti_port_settings settings = usual();
    form(3);
    line(3, false, true);
    settings.key++;
    set(1, settings);
    set(2, settings);
    hear(1, READY);
    hear(2, READY);
    pass(10);
    set(3, settings); /* it follows, with the partner that it had when its link fell */
    APART(1, 3, 0);
    pass(10);
    WHY(1, MYRKOSTI_HELD_BACK, 3, 10);
    WHY(2, MYRKOSTI_HELD_BACK, 3, 10);
    WHY(3, MYRKOSTI_LINK_DOWN, 0, 0);
    hold(table, PORTS, true);
    pass(9);
    WHY(2, MYRKOSTI_HELD_BACK, 3, 1);
    pass(1);
    WHY(1, MYRKOSTI_IS_EXPIRED, 0, 0); /* unheard for 30 ticks meanwhile */
    hear(1, READY);
    WHY(1, MYRKOSTI_CARRIES, 0, 0);
    WHY(3, MYRKOSTI_LINK_DOWN, 0, 0);
}

/* one that waits for another aggregator holds nobody back, though it waits longest */
static void not_held_back_by_others(void)
{
    static const int HEARD_AT[3] = {0, 5, 9};
    start();
    for (int now = 0; now < WAIT; now++) {
        for (uint32_t port = 1; port <= 3; port++) {
            if (now == HEARD_AT[port - 1]) {
                line(port, true, true);
                hear_from(port, port == 3 ? &OTHERS : &THEM, THEIR_KEY, READY, true);
            }
        }
        pass(1);
    }
    WHY(1, MYRKOSTI_HELD_BACK, 2, 5);
    WHY(2, MYRKOSTI_WAITS, 0, 5);
    WHY(3, MYRKOSTI_WAITS, 0, 9);
    APART(1, 2, 0);
    APART(1, 3, MYRKOSTI_PARTNER_SYSTEMS_DIFFER);
    pass(5);
    WHY(1, MYRKOSTI_CARRIES, 0, 0);
    WHY(2, MYRKOSTI_CARRIES, 0, 0);
    WHY(3, MYRKOSTI_WAITS, 0, 4);
}

/* ---- each reason by what leads to it ---- */

/* of a trunk of two, one thing changes on the first or on the second; the other way round the bits of first and second are exchanged */
static void one_reason(void)
{
    struct myrkosti_port_settings settings = usual();
    struct myrkosti_system them = THEM;
    settings.aggregation = false;
    for (uint32_t port = 1; port <= 2; port++) {
        form(2);
        set(port, settings);
        APART(port, 3 - port, MYRKOSTI_FIRST_INDIVIDUAL);
        APART(3 - port, port, MYRKOSTI_SECOND_INDIVIDUAL);
        form(2);
        hear(port, READY & ~MYRKOSTI_AGGREGATION);
        APART(port, 3 - port, MYRKOSTI_FIRST_PARTNER_INDIVIDUAL);
        APART(3 - port, port, MYRKOSTI_SECOND_PARTNER_INDIVIDUAL);
        form(2);
        hear_from(port, &OTHERS, THEIR_KEY, READY, true);
        APART(port, 3 - port, MYRKOSTI_PARTNER_SYSTEMS_DIFFER);
        form(2);
        hear_from(port, &THEM, THEIR_KEY + 256, READY, true);
        APART(port, 3 - port, MYRKOSTI_PARTNER_KEYS_DIFFER);
        form(2);
        them.priority = THEM.priority + 1;
        hear_from(port, &them, THEIR_KEY, READY, true);
        APART(port, 3 - port, MYRKOSTI_PARTNER_PRIORITIES_DIFFER);
    }
    settings = usual();
    settings.key = KEY + 256;
    form(2);
    set(2, settings);
    APART(1, 2, MYRKOSTI_KEYS_DIFFER);
}

/* a cable that leads back to us: both of its ends are looped and nothing else parts them; with one end of it the systems differ too. Priority and address
   both make a system */
static void looped(void)
{
    struct myrkosti_system system = us();
    form(3);
    hear_from(1, &system, THEIR_KEY, READY, true);
    APART(1, 2, MYRKOSTI_FIRST_LOOPED | MYRKOSTI_PARTNER_SYSTEMS_DIFFER);
    hear_from(2, &system, THEIR_KEY, READY, true);
    APART(1, 2, MYRKOSTI_FIRST_LOOPED | MYRKOSTI_SECOND_LOOPED);
    APART(3, 2, MYRKOSTI_SECOND_LOOPED | MYRKOSTI_PARTNER_SYSTEMS_DIFFER);
    APART(1, 1, 0);
    system.priority++;
    hear_from(2, &system, THEIR_KEY, READY, true);
    APART(3, 2, MYRKOSTI_PARTNER_PRIORITIES_DIFFER | MYRKOSTI_PARTNER_SYSTEMS_DIFFER);
    APART(1, 2, MYRKOSTI_FIRST_LOOPED | MYRKOSTI_PARTNER_PRIORITIES_DIFFER);
}

/* every reason at once, each for itself */
static void every_reason(void)
{
    const struct myrkosti_system system = us();
    struct myrkosti_system others = OTHERS;
    struct myrkosti_port_settings settings = usual();
    form(2);
    settings.aggregation = false;
    set(1, settings);
    settings.key++;
    set(2, settings);
    hear_from(1, &system, 1, READY & ~MYRKOSTI_AGGREGATION, true);
    others.priority++;
    hear_from(2, &others, 2, READY & ~MYRKOSTI_AGGREGATION, true);
    APART(1, 2, ALL_REASONS & ~MYRKOSTI_SECOND_LOOPED);
    hear_from(2, &system, 2, READY & ~MYRKOSTI_AGGREGATION, true);
    APART(1, 2, ALL_REASONS & ~(MYRKOSTI_PARTNER_PRIORITIES_DIFFER | MYRKOSTI_PARTNER_SYSTEMS_DIFFER));
    APART(2, 2, 0);
    hold(table, PORTS, true);
}

/* link, port priority, waiting and silence part nobody; being given up and half duplex do, as the default block says */
static void what_plays_no_part(void)
{
    struct myrkosti_port_settings settings = usual();
    form(2);
    settings.priority++;
    set(2, settings);
    APART(1, 2, 0);
    WHY(2, MYRKOSTI_WAITS, 0, WAIT);
    line(2, false, true);
    APART(1, 2, 0);
    line(2, false, false);
    APART(1, 2, 0);
    WHY(2, MYRKOSTI_LINK_DOWN, 0, 0);
    line(2, true, true);
    APART(1, 2, 0);
    WHY(2, MYRKOSTI_IS_EXPIRED, 0, 0);
    line(2, true, false);
    APART(1, 2, MYRKOSTI_SECOND_PARTNER_INDIVIDUAL | MYRKOSTI_PARTNER_PRIORITIES_DIFFER | MYRKOSTI_PARTNER_SYSTEMS_DIFFER | MYRKOSTI_PARTNER_KEYS_DIFFER);
    memcpy(settings.partner, table + place(PORTS, 1, MYRKOSTI_AT_PARTNER), MYRKOSTI_BLOCK);
    settings.partner[MYRKOSTI_BLOCK_STATE] = WILLING;
    set(2, settings); /* a default block that is word for word the neighbour */
    line(2, false, false);
    line(2, true, false);
    APART(1, 2, MYRKOSTI_SECOND_PARTNER_INDIVIDUAL); /* without LACP a port stands alone, whatever its default block says */
    line(2, true, true);
    for (int ticks = 0; ticks < SHORT; ticks++) {
        hear(1, READY);
        pass(1);
    }
    WHY(2, MYRKOSTI_IS_DEFAULTED, 0, 0);
    APART(1, 2, 0);
}

/* ---- the incident ---- */

/*
 * Defaults that were written over a learned partner took ports out of trunks, and from outside nobody could tell why. Here a new default block on a port
 * whose partner has introduced itself changes neither its partner nor its trunk. What can happen, and looks the same from outside, is told apart.
 */
static void the_incident(void)
{
    struct myrkosti_port_settings settings = usual();
    uint8_t partner[MYRKOSTI_BLOCK];
    form(3);
    memcpy(partner, table + place(PORTS, 2, MYRKOSTI_AT_PARTNER), MYRKOSTI_BLOCK);
    for (uint8_t i = 0; i < MYRKOSTI_BLOCK_STATE; i++)
        settings.partner[i] = 0xd0 + i;
    set(2, settings);
    for (int ticks = 0; ticks < 3 * SHORT; ticks++) {
        IS(memcmp(table + place(PORTS, 2, MYRKOSTI_AT_PARTNER), partner, MYRKOSTI_BLOCK), 0);
        for (uint32_t port = 1; port <= 3; port++) {
            WHY(port, MYRKOSTI_CARRIES, 0, 0);
            APART(port, 2, 0);
            hear(port, READY);
        }
        pass(1);
    }
    IS(distributing(table, PORTS), 7);
}

/* port 3 has left the trunk of three, ten seconds ago, and carries or not; the two others carry throughout */
static void ten_seconds(void (*hear_third)(void))
{
    for (int ticks = 0; ticks < 100; ticks++) {
        hear(1, READY);
        hear(2, READY);
        hear_third();
        pass(1);
        WHY(1, MYRKOSTI_CARRIES, 0, 0);
        WHY(2, MYRKOSTI_CARRIES, 0, 0);
        APART(1, 2, 0);
    }
    hold(table, PORTS, true);
}

static void with_another_key(void)
{
    hear_from(3, &THEM, THEIR_KEY + 1, READY, true);
}

static void with_its_key(void)
{
    hear(3, READY);
}

static void with_nothing(void)
{
}

/* a neighbour with another key: the port carries, by itself. Aggregation clear, at our end: the same, for another reason. A silent partner: it does not carry,
   and what parts it is the default block */
static void looks_the_same(void)
{
    struct myrkosti_port_settings settings = usual();
    form(3);
    ten_seconds(with_another_key);
    WHY(3, MYRKOSTI_CARRIES, 0, 0);
    APART(1, 3, MYRKOSTI_PARTNER_KEYS_DIFFER);
    form(3);
    settings.aggregation = false;
    set(3, settings);
    ten_seconds(with_its_key);
    WHY(3, MYRKOSTI_CARRIES, 0, 0);
    APART(1, 3, MYRKOSTI_SECOND_INDIVIDUAL);
    form(3);
    ten_seconds(with_nothing);
    WHY(3, MYRKOSTI_IS_DEFAULTED, 0, 0);
    APART(1, 3, MYRKOSTI_SECOND_PARTNER_INDIVIDUAL | MYRKOSTI_PARTNER_PRIORITIES_DIFFER | MYRKOSTI_PARTNER_SYSTEMS_DIFFER | MYRKOSTI_PARTNER_KEYS_DIFFER);
    form(3);
    settings = usual();
    settings.partner[MYRKOSTI_BLOCK_STATE] |= MYRKOSTI_SYNCHRONIZATION | MYRKOSTI_COLLECTING;
    set(3, settings);
    ten_seconds(with_nothing); /* how the old fault stayed hidden: it carries, and nobody is there */
    WHY(3, MYRKOSTI_CARRIES_BY_DEFAULT, 0, 0);
}

/* ---- refusals ---- */

static bool refused(struct why why, uint32_t answer)
{
    return same_why(why, (struct why){answer, MYRKOSTI_NO_CAUSE, 0, 0});
}

static bool parts_refused(struct apart apart, uint32_t answer)
{
    return apart.answer == answer && apart.reasons == 0;
}

/* both reports on a table of the form of today that is none: answered 1 whatever the numbers are, with zeros, and left as it is */
static void refuse_table(const uint8_t *memory, size_t length)
{
    static const uint32_t NUMBERS[] = {0, 1, 2, PORTS, PORTS + 1, 33, 4294967295u};
    static uint8_t before[LARGEST + 1];
    memcpy(before, memory, length);
    for (unsigned i = 0; i < sizeof NUMBERS / sizeof NUMBERS[0]; i++) {
        check(refused(why_in(memory, length, NUMBERS[i]), MYRKOSTI_TABLE_WRONG), "why of what is no table");
        check(parts_refused(apart_in(memory, length, NUMBERS[i], 1), MYRKOSTI_TABLE_WRONG), "apart of what is no table, the second a port");
        check(parts_refused(apart_in(memory, length, 1, NUMBERS[i]), MYRKOSTI_TABLE_WRONG), "apart of what is no table, the first a port");
    }
    IS(memcmp(memory, before, length), 0);
}

/* numbers that are of no port: why, and either of the two of apart */
static void refuse_ports(void)
{
    static const uint32_t NUMBERS[] = {0, PORTS + 1, 32, 33, 255, 256, 257, 0x10001, 0x80000001u, 4294967295u};
    uint8_t before[SIZE];
    form(3);
    memcpy(before, table, SIZE);
    for (unsigned i = 0; i < sizeof NUMBERS / sizeof NUMBERS[0]; i++) {
        check(refused(why_in(table, SIZE, NUMBERS[i]), MYRKOSTI_NO_SUCH_PORT), "why of no port");
        for (uint32_t port = 1; port <= PORTS; port++) {
            check(parts_refused(apart_in(table, SIZE, NUMBERS[i], port), MYRKOSTI_NO_SUCH_PORT), "apart, the first no port");
            check(parts_refused(apart_in(table, SIZE, port, NUMBERS[i]), MYRKOSTI_NO_SUCH_PORT), "apart, the second no port");
        }
        check(parts_refused(apart_in(table, SIZE, NUMBERS[i], NUMBERS[i]), MYRKOSTI_NO_SUCH_PORT), "apart of no port and itself");
    }
    IS(memcmp(table, before, SIZE), 0);
}

/* every length, every port count in the header, and the old form */
static void refuse_sizes(void)
{
    static uint8_t long_one[LARGEST + 1];
    uint8_t old[MYRKOSTI_OLD_TABLE(PORTS)];
    form(3);
    memcpy(long_one, table, SIZE);
    for (size_t length = 0; length < SIZE + 9; length++) {
        if (length != SIZE)
            refuse_table(long_one, length);
    }
    for (unsigned ports = 0; ports < 256; ports++) {
        if (ports != PORTS) {
            long_one[0] = (uint8_t)ports;
            refuse_table(long_one, SIZE);
        }
    }
    IS(myrkosti_back(table, SIZE, old, sizeof old), MYRKOSTI_DONE);
    refuse_table(old, sizeof old);
    IS(myrkosti_forward(old, sizeof old, table, SIZE), MYRKOSTI_DONE);
    hold(table, PORTS, true);
}

/* each field that has a range, beyond it, on each port */
static void refuse_fields(void)
{
    static const struct wrong_octet WRONG[] = OUT_OF_RANGE_OF(PORTS);
    form(3);
    for (uint32_t port = 1; port <= PORTS; port++) {
        for (unsigned i = 0; i < sizeof WRONG / sizeof WRONG[0]; i++) {
            uint8_t *const octet = table + place(PORTS, port, WRONG[i].at), kept = *octet;
            *octet = WRONG[i].octet;
            refuse_table(table, SIZE);
            *octet = kept;
        }
    }
    hold(table, PORTS, true);
}

/* ---- in any memory ---- */

/* a record in range, its octets from few values so that ports are often alike; whether a run could make it does not matter */
static void put_any_record(uint8_t *memory, uint32_t ports, uint32_t port)
{
    uint8_t r[MYRKOSTI_RECORD];
    for (size_t at = 0; at < MYRKOSTI_RECORD; at++)
        r[at] = (uint8_t)any(2);
    r[MYRKOSTI_AT_RECEIVE] = (uint8_t)any(6);
    r[MYRKOSTI_AT_PERIODIC] = (uint8_t)any(4);
    r[MYRKOSTI_AT_MUX] = (uint8_t)any(5);
    r[MYRKOSTI_AT_AGGREGATOR] = (uint8_t)(1 + any(ports));
    r[MYRKOSTI_AT_ACTOR_STATE] = (uint8_t)any(256);
    r[MYRKOSTI_AT_WAIT_TIMER] = (uint8_t)(any(2) * any(WAIT + 1));
    for (unsigned i = 0; i < 3; i++)
        r[MYRKOSTI_AT_AGES + i] = (uint8_t)(any(4) == 0 ? 255 : any(11));
    for (size_t at = MYRKOSTI_AT_PARTNER; at < MYRKOSTI_AT_PARTNER + MYRKOSTI_BLOCK_KEY; at++)
        r[at] = any(20) == 0 ? (uint8_t)any(256) : any(3) == 0 ? r[at] : 1;
    r[MYRKOSTI_AT_PARTNER + MYRKOSTI_BLOCK_STATE] = (uint8_t)any(256);
    for (size_t at = 0; at < MYRKOSTI_RECORD; at++)
        memory[place(ports, port, at)] = r[at];
}

/* tables of every port count, the system in the header sometimes that of the partners */
static void in_any_memory(void)
{
    static uint8_t memory[LARGEST];
    const unsigned made_none = causes_seen[MYRKOSTI_NO_CAUSE];
    for (unsigned i = 0; i < 400; i++) {
        const uint32_t ports = i < MYRKOSTI_PORTS ? i + 1 : 1 + any(6);
        memory[0] = (uint8_t)ports;
        for (unsigned at = 1; at < MYRKOSTI_HEADER; at++)
            memory[at] = any(20) == 0 ? (uint8_t)any(256) : 1;
        for (uint32_t port = 1; port <= ports; port++)
            put_any_record(memory, ports, port);
        hold(memory, ports, false);
    }
    check(causes_seen[MYRKOSTI_NO_CAUSE] > made_none, "memory that no run made has ports without a cause");
}

/* the two shapes of memory without a cause: a partner in sync and collecting, and a port that neither distributes nor waits for anybody */
static void no_cause(void)
{
    static const uint8_t MUX[] = {MYRKOSTI_MUX_DETACHED, MYRKOSTI_MUX_WAITING, MYRKOSTI_MUX_ATTACHED, MYRKOSTI_MUX_COLLECTING};
    form(2);
    for (unsigned i = 0; i < sizeof MUX / sizeof MUX[0]; i++) {
        table[place(PORTS, 2, MYRKOSTI_AT_MUX)] = MUX[i];
        WHY(2, MYRKOSTI_NO_CAUSE, 0, 0);
        IS(myrkosti_is_carrying(why_in(table, SIZE, 2).cause), false);
        WHY(1, MYRKOSTI_CARRIES, 0, 0);
        hold(table, PORTS, false);
    }
}

/* a table of one port, and one of 32, whose last port holds the first back */
static void fewest_and_most(void)
{
    static uint8_t memory[LARGEST];
    IS(start_in(memory, MYRKOSTI_TABLE(1), 1), MYRKOSTI_DONE);
    hold(memory, 1, true);
    check(refused(why_in(memory, MYRKOSTI_TABLE(1), 2), MYRKOSTI_NO_SUCH_PORT), "a table of one port has no second");
    IS(start_in(memory, LARGEST, MYRKOSTI_PORTS), MYRKOSTI_DONE);
    for (uint32_t port = 1; port <= MYRKOSTI_PORTS; port++) {
        memory[place(MYRKOSTI_PORTS, port, MYRKOSTI_AT_LINK)] = 1;
        memory[place(MYRKOSTI_PORTS, port, MYRKOSTI_AT_RECEIVE)] = MYRKOSTI_RECEIVE_CURRENT;
        memory[place(MYRKOSTI_PORTS, port, MYRKOSTI_AT_AGGREGATOR)] = 1;
        memory[place(MYRKOSTI_PORTS, port, MYRKOSTI_AT_WAIT_TIMER)] = port == MYRKOSTI_PORTS ? WAIT : 0;
    }
    hold(memory, MYRKOSTI_PORTS, false);
    check(same_why(why_in(memory, LARGEST, 1), (struct why){MYRKOSTI_DONE, MYRKOSTI_HELD_BACK, MYRKOSTI_PORTS, WAIT}), "held back by port 32");
    check(refused(why_in(memory, LARGEST, MYRKOSTI_PORTS + 1), MYRKOSTI_NO_SUCH_PORT), "no table has a port 33");
}

/* ---- along random runs ---- */

static void any_settings(uint32_t port)
{
    struct myrkosti_port_settings settings = usual();
    settings.key = (uint16_t)(KEY + (any(4) == 0));
    settings.priority = (uint16_t)(1 + (any(8) == 0));
    settings.aggregation = any(6) != 0;
    settings.timeout = any(8) != 0;
    settings.partner[MYRKOSTI_BLOCK_STATE] = any(3) == 0 ? MYRKOSTI_SYNCHRONIZATION | MYRKOSTI_COLLECTING : 0;
    settings.partner[MYRKOSTI_BLOCK_STATE] |= any(2) == 0 ? MYRKOSTI_AGGREGATION : 0;
    settings.partner[MYRKOSTI_BLOCK_KEY + 1] = (uint8_t)any(2);
    set(port, settings);
}

static void any_frame(uint32_t port)
{
    static const uint8_t STATES[] = {READY, READY, READY, READY, IN_SYNC, WILLING, READY & ~MYRKOSTI_AGGREGATION, MYRKOSTI_ACTIVITY};
    struct myrkosti_system who = any(6) == 0 ? OTHERS : any(12) == 0 ? us() : THEM;
    who.priority = (uint16_t)(who.priority + (any(12) == 0));
    hear_from(port, &who, (uint16_t)(THEIR_KEY + (any(10) == 0)), STATES[any(sizeof STATES)], any(8) != 0);
}

static void any_step(void)
{
    const uint32_t port = 1 + any(PORTS), what = any(20);
    uint8_t out[MYRKOSTI_FRAME];
    if (what == 0)
        line(port, any(3) != 0, any(5) != 0);
    else if (what == 1)
        any_settings(port);
    else if (what < 9)
        any_frame(port);
    else if (what == 9)
        myrkosti_fetch(table, SIZE, port, out, sizeof out, &unread);
    else
        pass(1 + (int)(any(6) == 0 ? any(SHORT) : any(4)));
}

/* from a start on, in runs of 400 steps: every cause and every reason comes along, and no table is without a cause */
static void along_runs(void)
{
    memset(causes_seen, 0, sizeof causes_seen);
    reasons_seen = reasons_missed = 0;
    for (unsigned runs = 0; runs < 12; runs++) {
        start();
        hold(table, PORTS, true);
        for (uint32_t port = 1; port <= PORTS; port++)
            line(port, true, true);
        for (unsigned steps = 0; steps < 400; steps++) {
            any_step();
            hold(table, PORTS, true);
        }
    }
    IS(causes_seen[MYRKOSTI_NO_CAUSE], 0);
    for (unsigned cause = MYRKOSTI_CARRIES; cause < CAUSES; cause++) {
        check(causes_seen[cause] > 100, "every cause comes along");
    }
    IS(reasons_seen, ALL_REASONS);
    IS(reasons_missed, ALL_REASONS);
}

int main(void)
{
    from_start_to_carrying();
    out_of_the_trunk();
    silence();
    on_its_settings_alone();
    the_first_that_applies();
    who_holds_back();
    so_many_more();
    all_wait_anew();
    held_back_by_a_down_port();
    not_held_back_by_others();
    one_reason();
    looped();
    every_reason();
    what_plays_no_part();
    the_incident();
    looks_the_same();
    refuse_ports();
    refuse_sizes();
    refuse_fields();
    in_any_memory();
    no_cause();
    fewest_and_most();
    along_runs();
    return finish("why and apart");
}
