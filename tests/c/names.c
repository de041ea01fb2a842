/* Every name of include/myrkosti.h held against what the library does. Compiled and run as C99, C11, C17 and C++17, with every warning on. */
#include "myrkosti.h"

#include "check.h"
#include "layout.h"
#include "neighbour.h"

#include <assert.h>
#include <string.h>

enum { PORTS = 2, SIZE = MYRKOSTI_TABLE(PORTS) };

static const uint8_t ADDRESS[6] = {0x02, 0x00, 0x5e, 0x10, 0x20, 0x30};
static const uint8_t OTHER[6] = {0x02, 0x00, 0x5e, 0x10, 0x20, 0x31};
static const uint8_t NOBODY[MYRKOSTI_BLOCK] = {0};

static uint8_t table[SIZE], record[MYRKOSTI_RECORD];
static struct myrkosti_counters counters; /* of whichever port */

/* the record of port 1 goes into `record` */
static void look(void)
{
    memset(record, 0xff, sizeof record);
    IS(myrkosti_port(table, SIZE, 1, record, sizeof record), MYRKOSTI_DONE);
}

static uint8_t seen(unsigned at)
{
    look();
    return record[at];
}

static void pass(int ticks)
{
    while (ticks-- > 0) {
        IS(myrkosti_tick(table, SIZE), MYRKOSTI_DONE);
    }
}

/* ---- version, sizes, numbers ---- */

static void versions_and_sizes(void)
{
    uint8_t out[MYRKOSTI_FRAME];
    IS(myrkosti_version(), MYRKOSTI_VERSION);
    IS(myrkosti_fits(), true);
    IS(myrkosti_table_size(PORTS), SIZE);
    IS(myrkosti_table_size(1), MYRKOSTI_HEADER + MYRKOSTI_RECORD);
    IS(myrkosti_table_size(MYRKOSTI_PORTS), MYRKOSTI_TABLE(MYRKOSTI_PORTS));
    IS(myrkosti_table_size(MYRKOSTI_PORTS + 1), 0);
    IS(MYRKOSTI_BLOCK_STATE + 1, MYRKOSTI_BLOCK);
    IS(MYRKOSTI_AT_PARTNER + MYRKOSTI_BLOCK, MYRKOSTI_AT_ACTOR_CHURN);
    IS(MYRKOSTI_AT_PARTNER_CHURN_COUNT + 4, MYRKOSTI_AT_MARKER);
    IS(MYRKOSTI_AT_MARKER_NUMBER + 4, MYRKOSTI_RECORD);
    IS(MYRKOSTI_AT_MARKER + MYRKOSTI_ASKED, MYRKOSTI_RECORD);
    IS(MYRKOSTI_OLD_RECORD, MYRKOSTI_AT_ACTOR_CHURN + MYRKOSTI_ASKED);
    IS(myrkosti_fetch(table, SIZE, 1, out, sizeof out - 1, &counters), MYRKOSTI_BUFFER_SHORT);
    IS(myrkosti_fetch(table, SIZE, 1, out, sizeof out, &counters), MYRKOSTI_NOTHING_TO_SEND);
}

static void numbers(void)
{
    for (uint32_t n = 0; n <= 0xffff; n++) {
        uint8_t octets[4] = {0xa5, 0, 0, 0xa5};
        myrkosti_put_number(octets + 1, n & 0xffff);
        IS(octets[0], 0xa5);
        IS(octets[1], n / 256);
        IS(octets[2], n % 256);
        IS(octets[3], 0xa5);
        IS(myrkosti_number(octets + 1), n);
    }
}

/* each octet weighs what its place says, and the highest bit is one like the others */
static void long_numbers(void)
{
    for (unsigned which = 0; which < 4; which++) {
        uint8_t octets[6] = {0xa5, 0, 0, 0, 0, 0xa5};
        for (uint32_t n = 0; n < 256; n++) {
            octets[1 + which] = n & 0xff;
            IS(myrkosti_long_number(octets + 1), n << (24 - 8 * which));
        }
    }
    const uint8_t octets[4] = {0x89, 0xab, 0xcd, 0xef};
    IS(myrkosti_long_number(octets), 0x89abcdef);
}

/* ---- settings and system, each value another one ---- */

static struct myrkosti_system us(void)
{
    struct myrkosti_system system = myrkosti_usual_system(ADDRESS);
    IS(memcmp(system.address, ADDRESS, 6), 0);
    IS(system.priority, 32768);
    IS(system.collector_max_delay, 0);
    system.priority = 0x0102;
    system.collector_max_delay = 0x0304;
    return system;
}

static void usual_settings(void)
{
    const struct myrkosti_port_settings usual = myrkosti_usual_settings(ADDRESS, 7);
    IS(memcmp(usual.address, ADDRESS, 6), 0);
    IS(usual.key, 7);
    IS(usual.priority, 32768);
    IS(usual.activity, true);
    IS(usual.timeout, true);
    IS(usual.aggregation, true);
    for (unsigned i = 0; i < MYRKOSTI_BLOCK; i++) {
        IS(usual.partner[i], i == MYRKOSTI_BLOCK_STATE ? 0x02 : 0);
    }
}

/* one of the three bools set at a time, and its bit alone */
static void three_bools(struct myrkosti_port_settings settings)
{
    static const uint8_t BITS[3] = {MYRKOSTI_ACTIVITY, MYRKOSTI_TIMEOUT, MYRKOSTI_AGGREGATION};
    for (unsigned which = 0; which < 3; which++) {
        settings.activity = which == 0;
        settings.timeout = which == 1;
        settings.aggregation = which == 2;
        IS(myrkosti_settings_with(table, SIZE, 1, &settings), MYRKOSTI_DONE);
        IS(seen(MYRKOSTI_AT_ACTOR_STATE) & (MYRKOSTI_ACTIVITY | MYRKOSTI_TIMEOUT | MYRKOSTI_AGGREGATION), BITS[which]);
    }
}

/* the header of the table and the record of its first port by their names, and an LACPDU's blocks */
static void start_and_set(void)
{
    struct myrkosti_system system = us();
    struct myrkosti_port_settings settings = myrkosti_usual_settings(OTHER, 0x1122);
    uint8_t out[MYRKOSTI_FRAME], ours[MYRKOSTI_BLOCK];
    settings.priority = 0x3344;
    for (uint8_t i = 0; i < MYRKOSTI_BLOCK_STATE; i++) {
        settings.partner[i] = 0x50 + i;
    }
    IS(myrkosti_start_with(table, SIZE, PORTS, &system, &settings), MYRKOSTI_DONE);
    IS(table[0], PORTS);
    IS(myrkosti_number(table + 1), 0x0102);
    IS(memcmp(table + 3, ADDRESS, 6), 0);
    IS(myrkosti_number(table + 9), 0x0304);
    IS(MYRKOSTI_HEADER, 11);
    look();
    IS(memcmp(record + MYRKOSTI_AT_ADDRESS, OTHER, 6), 0);
    IS(myrkosti_number(record + MYRKOSTI_AT_KEY), 0x1122);
    IS(myrkosti_number(record + MYRKOSTI_AT_PRIORITY), 0x3344);
    IS(memcmp(record + MYRKOSTI_AT_DEFAULT, settings.partner, MYRKOSTI_BLOCK), 0);
    IS(memcmp(record + MYRKOSTI_AT_PARTNER, settings.partner, MYRKOSTI_BLOCK), 0);
    IS(myrkosti_line(table, SIZE, 1, true, true), MYRKOSTI_DONE);
    IS(myrkosti_fetch(table, SIZE, 1, out, sizeof out, &counters), MYRKOSTI_DONE);
    look();
    put_ours(ours, &system, 1, record);
    IS(memcmp(out + ACTOR_AT, ours, MYRKOSTI_BLOCK), 0);
    IS(memcmp(out + PARTNER_AT, record + MYRKOSTI_AT_PARTNER, MYRKOSTI_BLOCK), 0);
    IS(myrkosti_number(out + PARTNER_AT + MYRKOSTI_BLOCK_SYSTEM_PRIORITY), 0x5051);
    IS(out[PARTNER_AT + MYRKOSTI_BLOCK_SYSTEM], 0x52);
    IS(myrkosti_number(out + PARTNER_AT + MYRKOSTI_BLOCK_KEY), 0x5859);
    IS(myrkosti_number(out + PARTNER_AT + MYRKOSTI_BLOCK_PORT_PRIORITY), 0x5a5b);
    IS(myrkosti_number(out + PARTNER_AT + MYRKOSTI_BLOCK_PORT), 0x5c5d);
    three_bools(settings);
    settings.partner[MYRKOSTI_BLOCK_STATE] = MYRKOSTI_SYNCHRONIZATION;
    IS(myrkosti_settings_with(table, SIZE, 1, &settings), MYRKOSTI_DEFAULT_WRONG);
    IS(myrkosti_start_with(table, SIZE, PORTS, &system, &settings), MYRKOSTI_DEFAULT_WRONG);
    IS(myrkosti_settings_with(table, SIZE, PORTS + 1, &settings), MYRKOSTI_NO_SUCH_PORT);
}

/* ---- states, by what leads to them ---- */

/* our partner on port 1 says this state of itself, and heard what we say */
static void hear(uint8_t state)
{
    static const struct myrkosti_system THEM = {{0, 0, 0, 0, 0, 5}, 1, 0};
    const struct myrkosti_system system = us();
    uint8_t frame[MYRKOSTI_FRAME], theirs[MYRKOSTI_BLOCK], ours[MYRKOSTI_BLOCK], out[MYRKOSTI_FRAME];
    uint32_t sent;
    look();
    put_ours(theirs, &THEM, 9, record);
    theirs[MYRKOSTI_BLOCK_STATE] = state;
    put_ours(ours, &system, 1, record);
    put_lacpdu(frame, theirs, ours);
    IS(myrkosti_receive(table, SIZE, 1, frame, sizeof frame, out, sizeof out, &sent, &counters), MYRKOSTI_DONE);
}

static void start(void)
{
    const struct myrkosti_system system = us();
    const struct myrkosti_port_settings settings = myrkosti_usual_settings(OTHER, 1);
    IS(myrkosti_start_with(table, SIZE, PORTS, &system, &settings), MYRKOSTI_DONE);
}

/* beside a refusal stand the states of code 0 */
static void states_beside_a_refusal(void)
{
    memset(record, 0xff, sizeof record);
    IS(myrkosti_port(table, SIZE, 0, record, sizeof record), MYRKOSTI_NO_SUCH_PORT);
    IS(record[MYRKOSTI_AT_RECEIVE], MYRKOSTI_RECEIVE_INITIALIZE);
    IS(record[MYRKOSTI_AT_PERIODIC], MYRKOSTI_PERIODIC_NO_PERIODIC);
    IS(record[MYRKOSTI_AT_MUX], MYRKOSTI_MUX_DETACHED);
    IS(record[MYRKOSTI_AT_SELECTED], MYRKOSTI_UNSELECTED);
    IS(record[MYRKOSTI_AT_AGGREGATOR], 0);
    IS(record[MYRKOSTI_AT_DUPLEX], 0);
    IS(record[MYRKOSTI_AT_ACTOR_CHURN], MYRKOSTI_NO_CHURN);
    IS(record[MYRKOSTI_AT_PARTNER_CHURN], MYRKOSTI_NO_CHURN);
    IS(record[MYRKOSTI_AT_MARKER], MYRKOSTI_MARKER_NONE);
}

/* the receive machine, with the bits and timers that tell of it */
static void receive_states(void)
{
    start();
    IS(seen(MYRKOSTI_AT_RECEIVE), MYRKOSTI_RECEIVE_PORT_DISABLED);
    IS(record[MYRKOSTI_AT_LINK], 0);
    IS(record[MYRKOSTI_AT_DUPLEX], 1);
    IS(record[MYRKOSTI_AT_SELECTED], MYRKOSTI_SELECTED);
    IS(record[MYRKOSTI_AT_AGGREGATOR], 1);
    IS(record[MYRKOSTI_AT_AGES], 255);
    IS(myrkosti_line(table, SIZE, 1, true, true), MYRKOSTI_DONE);
    IS(seen(MYRKOSTI_AT_RECEIVE), MYRKOSTI_RECEIVE_EXPIRED);
    IS(record[MYRKOSTI_AT_LINK], 1);
    IS(record[MYRKOSTI_AT_ACTOR_STATE] & MYRKOSTI_EXPIRED, MYRKOSTI_EXPIRED);
    IS(myrkosti_number(record + MYRKOSTI_AT_CURRENT_WHILE), 30);
    pass(30);
    IS(seen(MYRKOSTI_AT_RECEIVE), MYRKOSTI_RECEIVE_DEFAULTED);
    IS(record[MYRKOSTI_AT_ACTOR_STATE] & (MYRKOSTI_EXPIRED | MYRKOSTI_DEFAULTED), MYRKOSTI_DEFAULTED);
    hear(MYRKOSTI_ACTIVITY | MYRKOSTI_TIMEOUT | MYRKOSTI_AGGREGATION);
    IS(seen(MYRKOSTI_AT_RECEIVE), MYRKOSTI_RECEIVE_CURRENT);
    IS(record[MYRKOSTI_AT_ACTOR_STATE] & (MYRKOSTI_EXPIRED | MYRKOSTI_DEFAULTED), 0);
    IS(myrkosti_line(table, SIZE, 1, true, false), MYRKOSTI_DONE);
    IS(seen(MYRKOSTI_AT_RECEIVE), MYRKOSTI_RECEIVE_LACP_DISABLED);
    IS(record[MYRKOSTI_AT_DUPLEX], 0);
}

/* the partner's Timeout sets the pace; without a link there is none */
static void periodic_states(void)
{
    start();
    IS(seen(MYRKOSTI_AT_PERIODIC), MYRKOSTI_PERIODIC_NO_PERIODIC);
    IS(myrkosti_line(table, SIZE, 1, true, true), MYRKOSTI_DONE);
    hear(MYRKOSTI_ACTIVITY | MYRKOSTI_TIMEOUT);
    IS(seen(MYRKOSTI_AT_PERIODIC), MYRKOSTI_PERIODIC_FAST);
    IS(myrkosti_number(record + MYRKOSTI_AT_PERIODIC_TIMER), 10);
    hear(MYRKOSTI_ACTIVITY);
    IS(seen(MYRKOSTI_AT_PERIODIC), MYRKOSTI_PERIODIC_SLOW);
    IS(myrkosti_number(record + MYRKOSTI_AT_PERIODIC_TIMER), 300);
    /* PERIODIC_TX is left within a call: it is known by the range check alone */
    table[MYRKOSTI_HEADER + MYRKOSTI_AT_PERIODIC] = MYRKOSTI_PERIODIC_TX;
    IS(myrkosti_port(table, SIZE, 1, record, sizeof record), MYRKOSTI_DONE);
    table[MYRKOSTI_HEADER + MYRKOSTI_AT_PERIODIC] = MYRKOSTI_PERIODIC_TX + 1;
    IS(myrkosti_port(table, SIZE, 1, record, sizeof record), MYRKOSTI_TABLE_WRONG);
}

/* up to DISTRIBUTING as the partner comes along, each state with its bits */
static void mux_states(void)
{
    const uint8_t willing = MYRKOSTI_ACTIVITY | MYRKOSTI_TIMEOUT | MYRKOSTI_AGGREGATION;
    const uint8_t bits = MYRKOSTI_SYNCHRONIZATION | MYRKOSTI_COLLECTING | MYRKOSTI_DISTRIBUTING;
    uint32_t holding, attached, distributing, count, lowest;
    start();
    IS(myrkosti_line(table, SIZE, 1, true, true), MYRKOSTI_DONE);
    hear(willing);
    IS(seen(MYRKOSTI_AT_MUX), MYRKOSTI_MUX_WAITING);
    IS(record[MYRKOSTI_AT_WAIT_TIMER], 20);
    IS(record[MYRKOSTI_AT_ACTOR_STATE] & bits, 0);
    pass(20);
    IS(seen(MYRKOSTI_AT_MUX), MYRKOSTI_MUX_ATTACHED);
    IS(record[MYRKOSTI_AT_NTT], 1);
    IS(record[MYRKOSTI_AT_WAIT_TIMER], 0);
    IS(record[MYRKOSTI_AT_ACTOR_STATE] & bits, MYRKOSTI_SYNCHRONIZATION);
    hear(willing | MYRKOSTI_SYNCHRONIZATION);
    IS(seen(MYRKOSTI_AT_MUX), MYRKOSTI_MUX_COLLECTING);
    IS(record[MYRKOSTI_AT_ACTOR_STATE] & bits, MYRKOSTI_SYNCHRONIZATION | MYRKOSTI_COLLECTING);
    hear(willing | MYRKOSTI_SYNCHRONIZATION | MYRKOSTI_COLLECTING);
    IS(seen(MYRKOSTI_AT_MUX), MYRKOSTI_MUX_DISTRIBUTING);
    IS(record[MYRKOSTI_AT_ACTOR_STATE] & bits, bits);
    IS(record[MYRKOSTI_AT_PARTNER + MYRKOSTI_BLOCK_STATE], willing | MYRKOSTI_SYNCHRONIZATION | MYRKOSTI_COLLECTING);
    IS(myrkosti_aggregator(table, SIZE, 1, &holding, &attached, &distributing, &count, &lowest), MYRKOSTI_DONE);
    IS(holding == 1 && attached == 1 && distributing == 1 && count == 1 && lowest == 1, true);
}

/* an octet of the record of port 1 in the table */
static void put_octet(unsigned at, uint8_t octet)
{
    table[place(PORTS, 1, at)] = octet;
}

/* both monitors by what leads to their states: we attach after two seconds, and the partner is never heard */
static void churn_states(void)
{
    start();
    IS(seen(MYRKOSTI_AT_ACTOR_CHURN), MYRKOSTI_CHURN_MONITOR);
    IS(myrkosti_line(table, SIZE, 1, true, true), MYRKOSTI_DONE);
    pass(20);
    IS(seen(MYRKOSTI_AT_ACTOR_CHURN), MYRKOSTI_NO_CHURN);
    IS(record[MYRKOSTI_AT_PARTNER_CHURN], MYRKOSTI_CHURN_MONITOR);
    IS(myrkosti_number(record + MYRKOSTI_AT_ACTOR_CHURN_TIMER), 0);
    IS(myrkosti_number(record + MYRKOSTI_AT_PARTNER_CHURN_TIMER), 580);
    pass(579);
    IS(seen(MYRKOSTI_AT_PARTNER_CHURN), MYRKOSTI_CHURN_MONITOR);
    IS(myrkosti_long_number(record + MYRKOSTI_AT_PARTNER_CHURN_COUNT), 0);
    pass(1);
    IS(seen(MYRKOSTI_AT_PARTNER_CHURN), MYRKOSTI_CHURN);
    IS(record[MYRKOSTI_AT_ACTOR_CHURN], MYRKOSTI_NO_CHURN);
    IS(myrkosti_long_number(record + MYRKOSTI_AT_ACTOR_CHURN_COUNT), 0);
    IS(myrkosti_long_number(record + MYRKOSTI_AT_PARTNER_CHURN_COUNT), 1);
}

/* each octet of both monitors another one, read by its name, and the first state that is none */
static void churn_octets(void)
{
    static const uint8_t OCTETS[GROUP] = {MYRKOSTI_CHURN, MYRKOSTI_CHURN_MONITOR, 1, 0x11, 2, 0x22, 3, 0x33, 4, 0x44, 0xf5, 0x55, 0xf6, 0x66};
    start();
    for (unsigned i = 0; i < GROUP; i++) {
        put_octet(FRONT + i, OCTETS[i]);
    }
    look();
    IS(record[MYRKOSTI_AT_ACTOR_CHURN], MYRKOSTI_CHURN);
    IS(record[MYRKOSTI_AT_PARTNER_CHURN], MYRKOSTI_CHURN_MONITOR);
    IS(myrkosti_number(record + MYRKOSTI_AT_ACTOR_CHURN_TIMER), 0x0111);
    IS(myrkosti_number(record + MYRKOSTI_AT_PARTNER_CHURN_TIMER), 0x0222);
    IS(myrkosti_long_number(record + MYRKOSTI_AT_ACTOR_CHURN_COUNT), 0x03330444);
    IS(myrkosti_long_number(record + MYRKOSTI_AT_PARTNER_CHURN_COUNT), 0xf555f666);
    put_octet(MYRKOSTI_AT_PARTNER_CHURN, MYRKOSTI_CHURN + 1);
    IS(myrkosti_port(table, SIZE, 1, record, sizeof record), MYRKOSTI_TABLE_WRONG);
}

/* ---- Markers of our own ---- */

static uint32_t ask(uint32_t ticks)
{
    uint8_t out[MYRKOSTI_FRAME];
    return myrkosti_ask(table, SIZE, 1, ticks, out, sizeof out);
}

/* the Response to the Marker with this transaction comes to port 1 */
static uint32_t respond(uint32_t transaction)
{
    uint8_t frame[MYRKOSTI_FRAME], out[MYRKOSTI_FRAME];
    uint32_t sent;
    put_response(frame, 1, ADDRESS, transaction);
    return myrkosti_receive(table, SIZE, 1, frame, sizeof frame, out, sizeof out, &sent, &counters);
}

/* each outcome by what leads to it, on a port that distributes */
static void marker_outcomes(void)
{
    mux_states();
    IS(seen(MYRKOSTI_AT_MARKER), MYRKOSTI_MARKER_NONE);
    IS(ask(MYRKOSTI_LONGEST_WAIT + 1), MYRKOSTI_DEFAULT_WRONG);
    IS(ask(MYRKOSTI_LONGEST_WAIT), MYRKOSTI_DONE);
    IS(ask(1), MYRKOSTI_ALREADY_AWAITING);
    IS(seen(MYRKOSTI_AT_MARKER), MYRKOSTI_MARKER_AWAITING);
    IS(myrkosti_number(record + MYRKOSTI_AT_MARKER_TIMER), 600);
    IS(myrkosti_long_number(record + MYRKOSTI_AT_MARKER_NUMBER), 1);
    IS(respond(1), MYRKOSTI_RESPONSE);
    IS(respond(0), MYRKOSTI_DONE);
    IS(seen(MYRKOSTI_AT_MARKER), MYRKOSTI_MARKER_ANSWERED);
    IS(ask(1), MYRKOSTI_DONE);
    pass(1);
    IS(seen(MYRKOSTI_AT_MARKER), MYRKOSTI_MARKER_TIMED_OUT);
    IS(ask(1), MYRKOSTI_DONE);
    IS(myrkosti_line(table, SIZE, 1, false, true), MYRKOSTI_DONE);
    IS(seen(MYRKOSTI_AT_MARKER), MYRKOSTI_MARKER_CANCELLED);
    IS(myrkosti_number(record + MYRKOSTI_AT_MARKER_TIMER), 0);
    IS(myrkosti_long_number(record + MYRKOSTI_AT_MARKER_NUMBER), 3);
    IS(ask(1), MYRKOSTI_NOT_DISTRIBUTING);
}

/* each octet another one, read by its name, and the first outcome that is none */
static void marker_octets(void)
{
    static const uint8_t OCTETS[MYRKOSTI_ASKED] = {MYRKOSTI_MARKER_CANCELLED, 2, 0x11, 0xf3, 0x33, 0x44, 0x55};
    start();
    for (unsigned i = 0; i < MYRKOSTI_ASKED; i++) {
        put_octet(BEHIND + i, OCTETS[i]);
    }
    look();
    IS(record[MYRKOSTI_AT_MARKER], MYRKOSTI_MARKER_CANCELLED);
    IS(myrkosti_number(record + MYRKOSTI_AT_MARKER_TIMER), 0x0211);
    IS(myrkosti_long_number(record + MYRKOSTI_AT_MARKER_NUMBER), 0xf3334455);
    put_octet(MYRKOSTI_AT_MARKER, MYRKOSTI_MARKER_CANCELLED + 1);
    IS(myrkosti_port(table, SIZE, 1, record, sizeof record), MYRKOSTI_TABLE_WRONG);
}

/* ---- why ---- */

/* the cause of a port, with what stands beside it in the two numbers */
static uint32_t cause_of(uint32_t port, uint32_t *holder, uint32_t *ticks)
{
    uint32_t cause = 99;
    IS(myrkosti_why(table, SIZE, port, &cause, holder, ticks), MYRKOSTI_DONE);
    return cause;
}

static uint32_t cause_of_first(void)
{
    uint32_t holder = 99, ticks = 99;
    const uint32_t cause = cause_of(1, &holder, &ticks);
    IS(holder, 0);
    IS(ticks, cause == MYRKOSTI_WAITS ? 20 : 0);
    return cause;
}

/* each by what leads to it; the numbers are those of the header's list */
static void causes(void)
{
    const uint8_t willing = MYRKOSTI_ACTIVITY | MYRKOSTI_TIMEOUT | MYRKOSTI_AGGREGATION;
    struct myrkosti_port_settings settings = myrkosti_usual_settings(OTHER, 1);
    uint32_t cause = 99, holder = 99, ticks = 99;
    start();
    IS(cause_of_first(), MYRKOSTI_LINK_DOWN);
    IS(myrkosti_line(table, SIZE, 1, true, false), MYRKOSTI_DONE);
    IS(cause_of_first(), MYRKOSTI_HALF_DUPLEX);
    settings.partner[MYRKOSTI_BLOCK_STATE] = MYRKOSTI_SYNCHRONIZATION | MYRKOSTI_COLLECTING;
    IS(myrkosti_settings_with(table, SIZE, 1, &settings), MYRKOSTI_DONE);
    IS(myrkosti_line(table, SIZE, 1, true, true), MYRKOSTI_DONE);
    IS(cause_of_first(), MYRKOSTI_IS_EXPIRED);
    pass(30);
    IS(cause_of_first(), MYRKOSTI_CARRIES_BY_DEFAULT);
    hear(willing);
    IS(cause_of_first(), MYRKOSTI_WAITS);
    pass(20);
    IS(cause_of_first(), MYRKOSTI_OUT_OF_SYNC);
    hear(willing | MYRKOSTI_SYNCHRONIZATION);
    IS(cause_of_first(), MYRKOSTI_PARTNER_NOT_COLLECTING);
    hear(willing | MYRKOSTI_SYNCHRONIZATION | MYRKOSTI_COLLECTING);
    IS(cause_of_first(), MYRKOSTI_CARRIES);
    start();
    IS(myrkosti_line(table, SIZE, 1, true, true), MYRKOSTI_DONE);
    pass(30);
    IS(cause_of_first(), MYRKOSTI_IS_DEFAULTED);
    /* both ports wait for one aggregator, in memory that is put so: the second holds the first back */
    hear(willing);
    put_octet(MYRKOSTI_AT_WAIT_TIMER, 0);
    table[place(PORTS, 2, MYRKOSTI_AT_MUX)] = MYRKOSTI_MUX_WAITING;
    table[place(PORTS, 2, MYRKOSTI_AT_AGGREGATOR)] = 1;
    table[place(PORTS, 2, MYRKOSTI_AT_WAIT_TIMER)] = 12;
    IS(cause_of(1, &holder, &ticks), MYRKOSTI_HELD_BACK);
    IS(holder, 2);
    IS(ticks, 12);
    IS(myrkosti_why(table, SIZE, 0, &cause, &holder, &ticks), MYRKOSTI_NO_SUCH_PORT);
    IS(cause, MYRKOSTI_NO_CAUSE);
    IS(holder, 0);
    IS(ticks, 0);
    for (uint32_t number = 0; number < 20; number++) {
        IS(myrkosti_is_carrying(number), number == 1 || number == 2);
    }
    IS(MYRKOSTI_CARRIES, 1);
    IS(MYRKOSTI_PARTNER_NOT_COLLECTING, 10);
}

static uint32_t reasons_of(uint32_t first, uint32_t second)
{
    uint32_t reasons = 0xffff;
    IS(myrkosti_apart(table, SIZE, first, second, &reasons), MYRKOSTI_DONE);
    return reasons;
}

/* octet `at` of the record of port 1 is changed by these bits: the reason that it makes, seen from port 1 and from port 2; then it is put back */
static void reason(unsigned at, uint8_t bits, uint32_t from_first, uint32_t from_second)
{
    uint8_t *const octet = table + place(PORTS, 1, at);
    *octet = (*octet ^ bits) & 0xff;
    IS(reasons_of(1, 2), from_first);
    IS(reasons_of(2, 1), from_second);
    *octet = (*octet ^ bits) & 0xff;
    IS(reasons_of(1, 2), 0);
}

/* each by the octet that makes it; two ports with one partner, which is aggregatable */
static void reasons_by_octet(void)
{
    const struct myrkosti_system system = us();
    struct myrkosti_port_settings settings = myrkosti_usual_settings(OTHER, 1);
    uint32_t reasons = 99;
    settings.partner[MYRKOSTI_BLOCK_STATE] = MYRKOSTI_AGGREGATION;
    IS(myrkosti_start_with(table, SIZE, PORTS, &system, &settings), MYRKOSTI_DONE);
    reason(MYRKOSTI_AT_ACTOR_STATE, MYRKOSTI_AGGREGATION, MYRKOSTI_FIRST_INDIVIDUAL, MYRKOSTI_SECOND_INDIVIDUAL);
    reason(MYRKOSTI_AT_PARTNER + MYRKOSTI_BLOCK_STATE, MYRKOSTI_AGGREGATION, MYRKOSTI_FIRST_PARTNER_INDIVIDUAL, MYRKOSTI_SECOND_PARTNER_INDIVIDUAL);
    reason(MYRKOSTI_AT_KEY, 0x80, MYRKOSTI_KEYS_DIFFER, MYRKOSTI_KEYS_DIFFER);
    reason(MYRKOSTI_AT_PARTNER + MYRKOSTI_BLOCK_SYSTEM_PRIORITY, 0x80, MYRKOSTI_PARTNER_PRIORITIES_DIFFER, MYRKOSTI_PARTNER_PRIORITIES_DIFFER);
    reason(MYRKOSTI_AT_PARTNER + MYRKOSTI_BLOCK_SYSTEM + 5, 0x01, MYRKOSTI_PARTNER_SYSTEMS_DIFFER, MYRKOSTI_PARTNER_SYSTEMS_DIFFER);
    reason(MYRKOSTI_AT_PARTNER + MYRKOSTI_BLOCK_KEY + 1, 0x01, MYRKOSTI_PARTNER_KEYS_DIFFER, MYRKOSTI_PARTNER_KEYS_DIFFER);
    reason(MYRKOSTI_AT_PARTNER + MYRKOSTI_BLOCK_PORT, 0xff, 0, 0);
    memcpy(table + place(PORTS, 1, MYRKOSTI_AT_PARTNER), table + 1, 8);
    IS(reasons_of(1, 2), MYRKOSTI_FIRST_LOOPED | MYRKOSTI_PARTNER_PRIORITIES_DIFFER | MYRKOSTI_PARTNER_SYSTEMS_DIFFER);
    IS(reasons_of(2, 1), MYRKOSTI_SECOND_LOOPED | MYRKOSTI_PARTNER_PRIORITIES_DIFFER | MYRKOSTI_PARTNER_SYSTEMS_DIFFER);
    IS(reasons_of(1, 1), 0);
    IS(myrkosti_apart(table, SIZE, 1, PORTS + 1, &reasons), MYRKOSTI_NO_SUCH_PORT);
    IS(reasons, 0);
    IS(MYRKOSTI_FIRST_INDIVIDUAL, 1);
    IS(MYRKOSTI_PARTNER_KEYS_DIFFER, 0x200);
}

/* ---- the old form ---- */

/* there and back: a table that was just started has monitors that begin, so it is the same in every octet */
static void moves(void)
{
    uint8_t old[MYRKOSTI_OLD_TABLE(PORTS)], again[SIZE];
    start();
    IS(myrkosti_old_table_size(PORTS), sizeof old);
    IS(myrkosti_back(table, SIZE, old, sizeof old), MYRKOSTI_DONE);
    IS(memcmp(old, table, place(PORTS, 1, FRONT)), 0);
    for (uint32_t port = 1; port <= PORTS; port++) {
        IS(memcmp(old + old_place(PORTS, port, BEHIND), table + place(PORTS, port, BEHIND), MYRKOSTI_ASKED), 0);
    }
    IS(myrkosti_back(old, sizeof old, again, SIZE), MYRKOSTI_TABLE_WRONG);
    IS(myrkosti_forward(old, sizeof old, again, SIZE - 1), MYRKOSTI_TABLE_WRONG);
    IS(myrkosti_forward(old, sizeof old, again, SIZE), MYRKOSTI_DONE);
    IS(memcmp(again, table, SIZE), 0);
}

/* ---- answers ---- */

static uint32_t answer_on(uint32_t port, const uint8_t *frame, size_t length)
{
    uint8_t out[MYRKOSTI_FRAME];
    uint32_t sent;
    return myrkosti_receive(table, SIZE, port, frame, length, out, sizeof out, &sent, &counters);
}

static uint32_t answer_to(const uint8_t *frame, size_t length)
{
    return answer_on(2, frame, length);
}

/* on port 2, whose link is down; the numbers are those of document 01 */
static void answers(void)
{
    uint8_t frame[MYRKOSTI_FRAME], out[MYRKOSTI_FRAME];
    uint32_t ports;
    start();
    put_lacpdu(frame, NOBODY, NOBODY);
    IS(answer_to(frame, sizeof frame), MYRKOSTI_LACP_OFF);
    IS(answer_to(frame, sizeof frame - 1), MYRKOSTI_ILLEGAL);
    IS(answer_to(frame, 13), MYRKOSTI_FOREIGN);
    frame[TYPE_AT] = 0x81;
    IS(answer_to(frame, sizeof frame), MYRKOSTI_UNKNOWN);
    put_marker(frame, 1);
    IS(answer_to(frame, sizeof frame), MYRKOSTI_NOT_COLLECTING);
    put_marker(frame, 2);
    IS(answer_to(frame, sizeof frame), MYRKOSTI_RESPONSE);
    IS(myrkosti_tick(table, SIZE - 1), MYRKOSTI_TABLE_WRONG);
    IS(myrkosti_line(table, SIZE, 2, true, true), MYRKOSTI_DONE);
    for (uint16_t key = 2; key < 6; key++) {
        const struct myrkosti_port_settings settings = myrkosti_usual_settings(OTHER, key);
        IS(myrkosti_settings_with(table, SIZE, 2, &settings), MYRKOSTI_DONE);
        IS(myrkosti_due(table, SIZE, &ports), MYRKOSTI_DONE);
        IS(ports, key < 5 ? 2 : 0);
        IS(myrkosti_fetch(table, SIZE, 2, out, sizeof out, &counters), key < 5 ? MYRKOSTI_DONE : MYRKOSTI_TOO_MANY_SENDS);
    }
    IS(MYRKOSTI_DONE, 0);
    IS(MYRKOSTI_RESPONSE, 12);
    IS(MYRKOSTI_NOT_DISTRIBUTING, 13);
    IS(MYRKOSTI_ALREADY_AWAITING, 14);
}

/* ---- counters ---- */

#if defined __cplusplus || __STDC_VERSION__ >= 201112L /* C99 has no such assertion */
#define STANDS_AT(member, octet) static_assert(offsetof(struct myrkosti_counters, member) == (octet), #member)
static_assert(sizeof(struct myrkosti_counters) == 28, "seven numbers without padding");
STANDS_AT(lacpdus_received, 0);
STANDS_AT(markers_received, 4);
STANDS_AT(marker_responses_received, 8);
STANDS_AT(unknown_received, 12);
STANDS_AT(illegal_received, 16);
STANDS_AT(lacpdus_sent, 20);
STANDS_AT(marker_responses_sent, 24);
#endif

static void answer_often(uint32_t port, const uint8_t *frame, size_t length, uint32_t answer, int times)
{
    while (times-- > 0) {
        IS(answer_on(port, frame, length), answer);
    }
}

/* each by its name, no two so often: frames on port 2, which a start left without a link, and Markers and a fetch on port 1, which distributes */
static void counters_by_name(void)
{
    uint8_t frame[MYRKOSTI_FRAME];
    mux_states();
    memset(&counters, 0, sizeof counters);
    put_lacpdu(frame, NOBODY, NOBODY);
    answer_often(2, frame, sizeof frame, MYRKOSTI_LACP_OFF, 6);
    answer_often(2, frame, sizeof frame - 1, MYRKOSTI_ILLEGAL, 5);
    frame[SUBTYPE_AT] = 3;
    answer_often(2, frame, sizeof frame, MYRKOSTI_UNKNOWN, 4);
    put_marker(frame, 2);
    answer_often(2, frame, sizeof frame, MYRKOSTI_RESPONSE, 3);
    put_marker(frame, 1);
    answer_often(2, frame, sizeof frame, MYRKOSTI_NOT_COLLECTING, 1);
    answer_often(1, frame, sizeof frame, MYRKOSTI_DONE, 7);
    IS(myrkosti_fetch(table, SIZE, 1, frame, sizeof frame, &counters), MYRKOSTI_DONE);
    IS(counters.lacpdus_received, 6);
    IS(counters.markers_received, 1 + 7);
    IS(counters.marker_responses_received, 3);
    IS(counters.unknown_received, 4);
    IS(counters.illegal_received, 5);
    IS(counters.lacpdus_sent, 1);
    IS(counters.marker_responses_sent, 7);
}

int main(void)
{
    start();
    versions_and_sizes();
    numbers();
    long_numbers();
    usual_settings();
    start_and_set();
    states_beside_a_refusal();
    receive_states();
    periodic_states();
    mux_states();
    churn_states();
    churn_octets();
    marker_outcomes();
    marker_octets();
    causes();
    reasons_by_octet();
    moves();
    answers();
    counters_by_name();
    return finish("names of the header");
}
