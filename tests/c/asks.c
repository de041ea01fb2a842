/*
 * Markers of our own through include/myrkosti.h (43.5): what an ask writes and when it is refused, how an awaited Marker ends, and in any memory. Prints one
 * line for each check that fails, and how many passed.
 */
#include "myrkosti.h"

#include "check.h"
#include "layout.h"
#include "neighbour.h"
#include "unread.h"

#include <stdio.h>
#include <string.h>

enum { PORTS = 3, SIZE = MYRKOSTI_TABLE(PORTS), LARGEST = MYRKOSTI_TABLE(MYRKOSTI_PORTS), WHOLE = MYRKOSTI_FRAME, LONGEST = MYRKOSTI_LONGEST_WAIT };

/* no octet comes twice in these */
static const uint8_t SYSTEM[6] = {0x21, 0x22, 0x23, 0x24, 0x25, 0x26};
static const uint8_t ADDRESS[6] = {0x42, 0x43, 0x44, 0x45, 0x46, 0x47};

static uint8_t table[SIZE];

/* ---- what a port asked for ---- */

struct asked {
    uint8_t outcome;
    uint16_t timer;
    uint32_t number;
};

static struct asked asked_of(const uint8_t *memory, uint32_t ports, uint32_t port)
{
    uint8_t record[MYRKOSTI_RECORD];
    gather(memory, ports, port, record);
    return (struct asked){record[MYRKOSTI_AT_MARKER], myrkosti_number(record + MYRKOSTI_AT_MARKER_TIMER),
                          myrkosti_long_number(record + MYRKOSTI_AT_MARKER_NUMBER)};
}

static void put_asked(uint8_t *memory, uint32_t ports, uint32_t port, struct asked a)
{
    memory[place(ports, port, MYRKOSTI_AT_MARKER)] = a.outcome;
    myrkosti_put_number(memory + place(ports, port, MYRKOSTI_AT_MARKER_TIMER), a.timer);
    myrkosti_put_number(memory + place(ports, port, MYRKOSTI_AT_MARKER_NUMBER), (uint16_t)(a.number >> 16));
    myrkosti_put_number(memory + place(ports, port, MYRKOSTI_AT_MARKER_NUMBER + 2), (uint16_t)a.number);
}

static bool same(struct asked a, struct asked b)
{
    return a.outcome == b.outcome && a.timer == b.timer && a.number == b.number;
}

/* what a port asked for as the library reports it, which is what lies in the table */
static struct asked reported(uint32_t port)
{
    uint8_t record[MYRKOSTI_RECORD], there[MYRKOSTI_RECORD];
    IS(myrkosti_port(table, SIZE, port, record, sizeof record), MYRKOSTI_DONE);
    gather(table, PORTS, port, there);
    IS(memcmp(record, there, sizeof record), 0);
    return asked_of(table, PORTS, port);
}

#define HAS(port, outcome, timer, number) \
    check(same(reported(port), (struct asked){outcome, timer, number}), "port " #port " has " #outcome ", timer " #timer ", number " #number)

/* ---- a switch whose ports distribute ---- */

/* a partner that is in sync and collects by default, so that a port carries unheard; not aggregatable, so that each is by itself */
static struct myrkosti_port_settings settings_of(uint16_t key)
{
    struct myrkosti_port_settings settings = myrkosti_usual_settings(ADDRESS, key);
    settings.partner[MYRKOSTI_BLOCK_STATE] = MYRKOSTI_TIMEOUT | MYRKOSTI_SYNCHRONIZATION | MYRKOSTI_COLLECTING;
    return settings;
}

static uint32_t start_in(uint8_t *memory, size_t length, uint32_t ports)
{
    const struct myrkosti_system system = myrkosti_usual_system(SYSTEM);
    const struct myrkosti_port_settings settings = settings_of(1);
    return myrkosti_start_with(memory, length, ports, &system, &settings);
}

static uint32_t set_key(uint32_t port, uint16_t key)
{
    const struct myrkosti_port_settings settings = settings_of(key);
    return myrkosti_settings_with(table, SIZE, port, &settings);
}

static uint32_t line(uint32_t port, bool up, bool full)
{
    return myrkosti_line(table, SIZE, port, up, full);
}

static uint32_t tick(void)
{
    return myrkosti_tick(table, SIZE);
}

static uint8_t mux(uint32_t port)
{
    return table[place(PORTS, port, MYRKOSTI_AT_MUX)];
}

/* ports 1 and 2 distribute, port 2 at half duplex, where LACP is off; port 3 has no link */
static void begin(void)
{
    memset(table, 0xa5, SIZE);
    IS(start_in(table, SIZE, PORTS), MYRKOSTI_DONE);
    for (uint32_t port = 1; port <= PORTS; port++) {
        HAS(port, MYRKOSTI_MARKER_NONE, 0, 0);
    }
    IS(line(1, true, true), MYRKOSTI_DONE);
    IS(line(2, true, false), MYRKOSTI_DONE);
    for (int ticks = 0; ticks < 40; ticks++) {
        IS(tick(), MYRKOSTI_DONE);
    }
    IS(mux(1), MYRKOSTI_MUX_DISTRIBUTING);
    IS(mux(2), MYRKOSTI_MUX_DISTRIBUTING);
    IS(mux(3), MYRKOSTI_MUX_ATTACHED);
}

/* an ask that must be answered 0; it changes what the port asked for and nothing else. The Marker's transaction */
static uint32_t ask(uint32_t port, uint32_t ticks)
{
    uint8_t before[SIZE], marker[WHOLE];
    const struct asked was = asked_of(table, PORTS, port);
    memcpy(before, table, SIZE);
    IS(myrkosti_ask(table, SIZE, port, ticks, marker, sizeof marker), MYRKOSTI_DONE);
    put_asked(before, PORTS, port, (struct asked){MYRKOSTI_MARKER_AWAITING, (uint16_t)ticks, was.number + 1});
    IS(memcmp(table, before, SIZE), 0);
    IS(myrkosti_long_number(marker + REQUESTER_AT + 8), was.number);
    return was.number;
}

/* a frame comes in on a port; an accepted Response sends nothing, changes nothing but the outcome and its timer, and leaves the buffer; a refused one changes nothing */
static uint32_t hear(uint32_t port, const uint8_t *frame, size_t length)
{
    uint8_t before[SIZE], out[WHOLE], kept[WHOLE];
    uint32_t sent = 9;
    memcpy(before, table, SIZE);
    memset(out, 0xa5, WHOLE);
    memcpy(kept, out, WHOLE);
    const uint32_t answer = myrkosti_receive(table, SIZE, port, frame, length, out, sizeof out, &sent, &unread);
    if (answer == MYRKOSTI_DONE)
        put_asked(before, PORTS, port, (struct asked){MYRKOSTI_MARKER_ANSWERED, 0, asked_of(before, PORTS, port).number});
    IS(memcmp(table, before, SIZE), 0);
    IS(memcmp(out, kept, WHOLE), 0);
    IS(sent, 0);
    return answer;
}

/* the Response to a Marker of ours comes in on the port that asked */
static uint32_t respond(uint32_t port, uint32_t transaction)
{
    uint8_t frame[WHOLE];
    put_response(frame, (uint16_t)port, SYSTEM, transaction);
    return hear(port, frame, sizeof frame);
}

/* ---- the Marker ---- */

/* octet by octet: the address of Slow Protocols, our own, the type; subtype 2, version 1, type 1, length 16; port, system, transaction; and zeros */
static void marker_octets(void)
{
    static const uint8_t BEGINS[30] = {0x01, 0x80, 0xc2, 0x00, 0x00, 0x02, 0x42, 0x43, 0x44, 0x45, 0x46, 0x47, 0x88, 0x09, 2, 1, 1, 16,
                                       0, 2, 0x21, 0x22, 0x23, 0x24, 0x25, 0x26, 0, 0, 0, 0};
    begin();
    for (uint8_t transaction = 0; transaction < 3; transaction++) {
        uint8_t out[WHOLE + 9], expected[WHOLE + 9];
        memset(out, 0xa5, sizeof out);
        memset(expected, 0, WHOLE);
        memset(expected + WHOLE, 0xa5, sizeof expected - WHOLE);
        memcpy(expected, BEGINS, sizeof BEGINS);
        expected[29] = transaction;
        IS(myrkosti_ask(table, SIZE, 2, 5, out, sizeof out), MYRKOSTI_DONE);
        IS(memcmp(out, expected, sizeof out), 0);
        HAS(2, MYRKOSTI_MARKER_AWAITING, 5, transaction + 1u);
        HAS(1, MYRKOSTI_MARKER_NONE, 0, 0);
        IS(respond(2, transaction), MYRKOSTI_DONE);
    }
}

/* every port of the largest table has its own number in it and counts for itself */
static void marker_of_every_port(void)
{
    static uint8_t large[LARGEST];
    uint8_t marker[WHOLE];
    IS(start_in(large, LARGEST, MYRKOSTI_PORTS), MYRKOSTI_DONE);
    for (uint32_t port = 1; port <= MYRKOSTI_PORTS; port++) {
        large[place(MYRKOSTI_PORTS, port, MYRKOSTI_AT_MUX)] = MYRKOSTI_MUX_DISTRIBUTING;
        put_asked(large, MYRKOSTI_PORTS, port, (struct asked){MYRKOSTI_MARKER_TIMED_OUT, 0, 0x01020300 + port});
    }
    for (uint32_t port = 1; port <= MYRKOSTI_PORTS; port++) {
        IS(myrkosti_ask(large, LARGEST, port, port, marker, sizeof marker), MYRKOSTI_DONE);
        IS(myrkosti_number(marker + REQUESTER_AT), port);
        IS(memcmp(marker + REQUESTER_AT + 2, SYSTEM, 6), 0);
        IS(myrkosti_long_number(marker + REQUESTER_AT + 8), 0x01020300 + port);
    }
    for (uint32_t port = 1; port <= MYRKOSTI_PORTS; port++) {
        check(same(asked_of(large, MYRKOSTI_PORTS, port), (struct asked){MYRKOSTI_MARKER_AWAITING, (uint16_t)port, 0x01020301 + port}), "each port for itself");
    }
}

/* after 4294967295 comes 0; the one awaited is the one before */
static void numbers_wrap(void)
{
    static const uint32_t FROM[] = {0xffffffff, 0x00ffffff, 0x0000ffff, 0x000000ff, 0x7fffffff};
    begin();
    for (size_t i = 0; i < sizeof FROM / sizeof FROM[0]; i++) {
        put_asked(table, PORTS, 1, (struct asked){MYRKOSTI_MARKER_CANCELLED, 0, FROM[i]});
        IS(ask(1, 9), FROM[i]);
        HAS(1, MYRKOSTI_MARKER_AWAITING, 9, FROM[i] + 1);
        IS(respond(1, FROM[i] + 1), MYRKOSTI_RESPONSE);
        IS(respond(1, FROM[i] - 1), MYRKOSTI_RESPONSE);
        IS(respond(1, FROM[i]), MYRKOSTI_DONE);
        IS(ask(1, 9), FROM[i] + 1);
    }
}

/* ---- refusals ---- */

/* what can be wrong with an ask, in the order in which it is tested */
enum { NO_TABLE, NO_PORT, SHORT, WAIT, MUX, AWAITS, FAULTS };
static const uint32_t ANSWERS[FAULTS] = {MYRKOSTI_TABLE_WRONG, MYRKOSTI_NO_SUCH_PORT, MYRKOSTI_BUFFER_SHORT, MYRKOSTI_DEFAULT_WRONG,
                                         MYRKOSTI_NOT_DISTRIBUTING, MYRKOSTI_ALREADY_AWAITING};

/* the answer to an ask on this table; unless it is 0, nothing has changed in table and buffer */
static uint32_t attempt(size_t table_len, uint32_t port, uint32_t ticks, size_t out_len)
{
    uint8_t before[SIZE], out[WHOLE + 1], kept[WHOLE + 1];
    memcpy(before, table, SIZE);
    memset(out, 0xa5, sizeof out);
    memcpy(kept, out, sizeof out);
    const uint32_t answer = myrkosti_ask(table, table_len, port, ticks, out, out_len);
    check(answer == MYRKOSTI_DONE || memcmp(table, before, SIZE) == 0, "a refused ask leaves the table");
    check(answer == MYRKOSTI_DONE || memcmp(out, kept, sizeof out) == 0, "a refused ask leaves the buffer");
    IS(out[WHOLE], 0xa5);
    return answer;
}

/* every set of faults: the answer is that of the first */
static void refuse_in_order(void)
{
    for (unsigned faults = 0; faults < 1u << FAULTS; faults++) {
        uint32_t answer = MYRKOSTI_DONE;
        for (int fault = FAULTS - 1; fault >= 0; fault--) {
            if ((faults >> fault & 1) != 0)
                answer = ANSWERS[fault];
        }
        begin();
        if ((faults >> AWAITS & 1) != 0)
            ask(1, LONGEST);
        if ((faults >> MUX & 1) != 0) {
            IS(set_key(1, 2), MYRKOSTI_DONE); /* the port leaves DISTRIBUTING, and goes on awaiting */
        }
        IS(attempt((faults >> NO_TABLE & 1) != 0 ? SIZE - 1 : SIZE, (faults >> NO_PORT & 1) != 0 ? 0 : 1, (faults >> WAIT & 1) != 0 ? 0 : 1,
                   (faults >> SHORT & 1) != 0 ? WHOLE - 1 : WHOLE), answer);
    }
}

/* each argument by itself, at the edges of its range and far beyond */
static void refuse_arguments(void)
{
    static const struct {
        uint32_t port, ticks;
        size_t out_len;
        uint32_t answer;
    } ASKS[] = {
        {1, 1, WHOLE, MYRKOSTI_DONE}, {1, LONGEST, WHOLE, MYRKOSTI_DONE}, {1, 1, WHOLE + 1, MYRKOSTI_DONE}, {2, 300, WHOLE, MYRKOSTI_DONE},
        {1, 0, WHOLE, MYRKOSTI_DEFAULT_WRONG}, {1, LONGEST + 1, WHOLE, MYRKOSTI_DEFAULT_WRONG}, {1, 0x10001, WHOLE, MYRKOSTI_DEFAULT_WRONG},
        {1, 0x10000, WHOLE, MYRKOSTI_DEFAULT_WRONG}, {1, 4294967295u, WHOLE, MYRKOSTI_DEFAULT_WRONG}, {1, 1, 0, MYRKOSTI_BUFFER_SHORT},
        {1, 1, WHOLE - 1, MYRKOSTI_BUFFER_SHORT}, {0, 1, WHOLE, MYRKOSTI_NO_SUCH_PORT}, {PORTS + 1, 1, WHOLE, MYRKOSTI_NO_SUCH_PORT},
        {0x101, 1, WHOLE, MYRKOSTI_NO_SUCH_PORT}, {0x10001, 1, WHOLE, MYRKOSTI_NO_SUCH_PORT}, {4294967295u, 1, WHOLE, MYRKOSTI_NO_SUCH_PORT},
        {3, 1, WHOLE, MYRKOSTI_NOT_DISTRIBUTING},
    };
    for (size_t i = 0; i < sizeof ASKS / sizeof ASKS[0]; i++) {
        begin();
        IS(attempt(SIZE, ASKS[i].port, ASKS[i].ticks, ASKS[i].out_len), ASKS[i].answer);
        if (ASKS[i].answer == MYRKOSTI_DONE) {
            IS(attempt(SIZE, ASKS[i].port, ASKS[i].ticks, ASKS[i].out_len), MYRKOSTI_ALREADY_AWAITING);
        }
    }
    begin();
    IS(myrkosti_ask(table, 0, 1, 1, table, 0), MYRKOSTI_TABLE_WRONG);
    IS(myrkosti_ask(table, SIZE, 1, 1, NULL, 0), MYRKOSTI_BUFFER_SHORT);
}

/* DISTRIBUTING alone will do: not COLLECTING, though a Marker that came in there would be answered, and whatever link and duplex are */
static void refuse_unless_distributing(void)
{
    begin();
    for (uint8_t state = MYRKOSTI_MUX_DETACHED; state <= MYRKOSTI_MUX_DISTRIBUTING; state++) {
        for (uint8_t bits = 0; bits < 4; bits++) {
            put_asked(table, PORTS, 3, (struct asked){MYRKOSTI_MARKER_NONE, 0, 0});
            table[place(PORTS, 3, MYRKOSTI_AT_MUX)] = state;
            table[place(PORTS, 3, MYRKOSTI_AT_LINK)] = bits & 1;
            table[place(PORTS, 3, MYRKOSTI_AT_DUPLEX)] = bits >> 1;
            IS(attempt(SIZE, 3, 1, WHOLE), state == MYRKOSTI_MUX_DISTRIBUTING ? MYRKOSTI_DONE : MYRKOSTI_NOT_DISTRIBUTING);
        }
    }
}

/* a refusal uses no number */
static void refusals_use_no_number(void)
{
    begin();
    IS(ask(1, 3), 0);
    IS(attempt(SIZE, 1, 3, WHOLE), MYRKOSTI_ALREADY_AWAITING);
    IS(attempt(SIZE, 1, 0, WHOLE), MYRKOSTI_DEFAULT_WRONG);
    IS(attempt(SIZE, 1, 3, WHOLE - 1), MYRKOSTI_BUFFER_SHORT);
    HAS(1, MYRKOSTI_MARKER_AWAITING, 3, 1);
    IS(respond(1, 0), MYRKOSTI_DONE);
    IS(ask(1, 3), 1);
}

/* ---- the three ends ---- */

/* at once, or after any number of ticks before the last; a second copy is one that nobody awaits */
static void answered(void)
{
    for (uint16_t after = 0; after < 40; after++) {
        begin();
        IS(ask(1, 40), 0);
        for (uint16_t ticks = 0; ticks < after; ticks++) {
            IS(tick(), MYRKOSTI_DONE);
            HAS(1, MYRKOSTI_MARKER_AWAITING, 39 - ticks, 1);
        }
        IS(respond(1, 0), MYRKOSTI_DONE);
        HAS(1, MYRKOSTI_MARKER_ANSWERED, 0, 1);
        IS(respond(1, 0), MYRKOSTI_RESPONSE);
        HAS(1, MYRKOSTI_MARKER_ANSWERED, 0, 1);
    }
}

/* at the tick that was named and not before; a Response after it is one that nobody awaits */
static void timed_out(void)
{
    static const uint16_t WAITS[] = {1, 2, 3, 20, 255, 256, 257, LONGEST - 1, LONGEST};
    for (size_t i = 0; i < sizeof WAITS / sizeof WAITS[0]; i++) {
        begin();
        IS(ask(1, WAITS[i]), 0);
        for (uint16_t left = WAITS[i]; left > 1; left--) {
            HAS(1, MYRKOSTI_MARKER_AWAITING, left, 1);
            IS(tick(), MYRKOSTI_DONE);
        }
        HAS(1, MYRKOSTI_MARKER_AWAITING, 1, 1);
        IS(tick(), MYRKOSTI_DONE);
        HAS(1, MYRKOSTI_MARKER_TIMED_OUT, 0, 1);
        IS(respond(1, 0), MYRKOSTI_RESPONSE);
        IS(tick(), MYRKOSTI_DONE);
        HAS(1, MYRKOSTI_MARKER_TIMED_OUT, 0, 1);
        IS(ask(1, 1), 1);
    }
}

/* a refused tick is none */
static void refused_ticks(void)
{
    begin();
    ask(1, 1);
    IS(myrkosti_tick(table, SIZE - 1), MYRKOSTI_TABLE_WRONG);
    HAS(1, MYRKOSTI_MARKER_AWAITING, 1, 1);
    IS(respond(1, 0), MYRKOSTI_DONE);
}

/* an awaited Marker on an up port, and then this line */
static void change_line(bool full, bool then_up, bool then_full, uint8_t outcome)
{
    begin();
    IS(line(1, true, full), MYRKOSTI_DONE);
    table[place(PORTS, 1, MYRKOSTI_AT_MUX)] = MYRKOSTI_MUX_DISTRIBUTING; /* also at half duplex, where the port waits anew */
    ask(1, 7);
    IS(line(1, then_up, then_full), MYRKOSTI_DONE);
    HAS(1, outcome, outcome == MYRKOSTI_MARKER_AWAITING ? 7 : 0, 1);
    IS(respond(1, 0), outcome == MYRKOSTI_MARKER_AWAITING ? MYRKOSTI_DONE : MYRKOSTI_RESPONSE);
}

/* the link falls, the duplex changes, or both; values as they are cancel nothing, nor does a line of another port, or one that is refused */
static void cancelled(void)
{
    for (unsigned bits = 0; bits < 8; bits++) {
        const bool full = (bits & 1) != 0, then_up = (bits & 2) != 0, then_full = (bits & 4) != 0;
        change_line(full, then_up, then_full, then_up && full == then_full ? MYRKOSTI_MARKER_AWAITING : MYRKOSTI_MARKER_CANCELLED);
    }
    begin();
    ask(1, 7);
    ask(2, 8);
    IS(line(0, false, true), MYRKOSTI_NO_SUCH_PORT);
    IS(line(PORTS + 1, false, true), MYRKOSTI_NO_SUCH_PORT);
    IS(myrkosti_line(table, SIZE - 1, 1, false, true), MYRKOSTI_TABLE_WRONG);
    IS(line(3, true, true), MYRKOSTI_DONE);
    IS(line(3, false, true), MYRKOSTI_DONE);
    HAS(1, MYRKOSTI_MARKER_AWAITING, 7, 1);
    IS(line(2, false, false), MYRKOSTI_DONE);
    HAS(1, MYRKOSTI_MARKER_AWAITING, 7, 1);
    HAS(2, MYRKOSTI_MARKER_CANCELLED, 0, 1);
    IS(line(2, true, true), MYRKOSTI_DONE);
    HAS(2, MYRKOSTI_MARKER_CANCELLED, 0, 1);
}

/* ---- which Response it is ---- */

/* every bit of the requester's port, system and transaction; then the right one */
static void one_wrong_bit(void)
{
    uint8_t frame[WHOLE];
    begin();
    put_asked(table, PORTS, 1, (struct asked){MYRKOSTI_MARKER_NONE, 0, 0xe1e2e3e4});
    ask(1, 600);
    for (unsigned place_of_bit = 0; place_of_bit < 8 * (REQUESTER_END - REQUESTER_AT); place_of_bit++) {
        put_response(frame, 1, SYSTEM, 0xe1e2e3e4);
        frame[REQUESTER_AT + place_of_bit / 8] ^= (uint8_t)(1u << place_of_bit % 8);
        IS(hear(1, frame, sizeof frame), MYRKOSTI_RESPONSE);
    }
    HAS(1, MYRKOSTI_MARKER_AWAITING, 600, 0xe1e2e3e5);
    IS(respond(1, 0xe1e2e3e4), MYRKOSTI_DONE);
}

/* nothing else of it is compared: source, version, pad, reserved octets and what follows the frame's 124 */
static void other_octets(void)
{
    for (size_t at = 0; at < WHOLE; at++) {
        uint8_t frame[WHOLE + 8];
        const bool tested = at < 6 || (at >= TYPE_AT && at < SUBTYPE_AT + 1) || (at > SUBTYPE_AT + 1 && at < REQUESTER_END);
        memset(frame, 0x5a, sizeof frame);
        begin();
        ask(1, 9);
        put_response(frame, 1, SYSTEM, 0);
        frame[at] ^= 0x80;
        if (tested) {
            check(hear(1, frame, sizeof frame) != MYRKOSTI_DONE, "an octet that tells what the frame is");
        } else {
            IS(hear(1, frame, sizeof frame), MYRKOSTI_DONE);
        }
    }
}

/* a Marker that comes in is no Response, though it says the same, nor is one that is cut short; the first is answered */
static void no_response(void)
{
    uint8_t frame[WHOLE], out[WHOLE];
    uint32_t sent;
    begin();
    ask(1, 9);
    put_response(frame, 1, SYSTEM, 0);
    IS(hear(1, frame, WHOLE - 1), MYRKOSTI_ILLEGAL);
    frame[16] = 1;
    IS(myrkosti_receive(table, SIZE, 1, frame, sizeof frame, out, sizeof out, &sent, &unread), MYRKOSTI_DONE);
    IS(sent, WHOLE);
    HAS(1, MYRKOSTI_MARKER_AWAITING, 9, 1);
    IS(hear(1, out, sizeof out), MYRKOSTI_DONE); /* what it is answered with is one */
    HAS(1, MYRKOSTI_MARKER_ANSWERED, 0, 1);
}

/* the buffer is asked for though a Response writes nothing into it */
static void buffer_of_a_response(void)
{
    uint8_t frame[WHOLE], out[WHOLE];
    uint32_t sent = 9;
    begin();
    ask(1, 9);
    put_response(frame, 1, SYSTEM, 0);
    IS(myrkosti_receive(table, SIZE, 1, frame, sizeof frame, out, sizeof out - 1, &sent, &unread), MYRKOSTI_BUFFER_SHORT);
    IS(sent, 0);
    HAS(1, MYRKOSTI_MARKER_AWAITING, 9, 1);
}

/* two ports await the same transaction: each its own Response, on its own port */
static void on_another_port(void)
{
    uint8_t frame[WHOLE];
    begin();
    ask(1, 9);
    ask(2, 9);
    put_response(frame, 1, SYSTEM, 0);
    IS(hear(2, frame, sizeof frame), MYRKOSTI_RESPONSE);
    IS(hear(3, frame, sizeof frame), MYRKOSTI_RESPONSE);
    put_response(frame, 2, SYSTEM, 0);
    IS(hear(1, frame, sizeof frame), MYRKOSTI_RESPONSE);
    put_response(frame, 3, SYSTEM, 0);
    IS(hear(3, frame, sizeof frame), MYRKOSTI_RESPONSE);
    IS(respond(2, 0), MYRKOSTI_DONE);
    HAS(1, MYRKOSTI_MARKER_AWAITING, 9, 1);
    IS(respond(1, 0), MYRKOSTI_DONE);
    HAS(3, MYRKOSTI_MARKER_NONE, 0, 0);
}

/* the Response to a Marker that has ended does not end the one after it */
static void late_response(void)
{
    begin();
    ask(1, 1);
    IS(tick(), MYRKOSTI_DONE);
    IS(ask(1, 5), 1);
    IS(respond(1, 0), MYRKOSTI_RESPONSE);
    HAS(1, MYRKOSTI_MARKER_AWAITING, 5, 2);
    IS(respond(1, 1), MYRKOSTI_DONE);
}

/* ---- what ends nothing, and what forgets ---- */

/* an LACPDU on port 1 of a neighbour in sync, which collects or not; it is not aggregatable, so that it need not name us */
static void hear_neighbour(uint8_t collects)
{
    const uint8_t block[MYRKOSTI_BLOCK] = {0, 1, 0, 0, 0, 0, 0, 5, 0, 1, 0, 1, 0, 1, MYRKOSTI_ACTIVITY | MYRKOSTI_TIMEOUT | MYRKOSTI_SYNCHRONIZATION | collects};
    uint8_t frame[WHOLE], out[WHOLE];
    uint32_t sent;
    put_lacpdu(frame, block, block);
    IS(myrkosti_receive(table, SIZE, 1, frame, sizeof frame, out, sizeof out, &sent, &unread), MYRKOSTI_DONE);
}

/* the port leaves DISTRIBUTING as its partner stops collecting, or its settings change: the Marker is awaited on, and its Response is taken */
static void leaves_its_trunk(void)
{
    begin();
    hear_neighbour(MYRKOSTI_COLLECTING);
    for (int ticks = 0; ticks < 20; ticks++) {
        IS(tick(), MYRKOSTI_DONE);
    }
    ask(1, 9);
    hear_neighbour(0);
    IS(mux(1), MYRKOSTI_MUX_COLLECTING);
    HAS(1, MYRKOSTI_MARKER_AWAITING, 9, 1);
    IS(respond(1, 0), MYRKOSTI_DONE);
    begin();
    ask(1, 9);
    IS(set_key(1, 7), MYRKOSTI_DONE);
    IS(mux(1), MYRKOSTI_MUX_WAITING);
    HAS(1, MYRKOSTI_MARKER_AWAITING, 9, 1);
    IS(tick(), MYRKOSTI_DONE);
    HAS(1, MYRKOSTI_MARKER_AWAITING, 8, 1);
    IS(respond(1, 0), MYRKOSTI_DONE);
}

/* an outcome stays through everything until the next ask, and a start forgets it; one that is refused does not */
static void outcome_stays(void)
{
    for (uint8_t outcome = MYRKOSTI_MARKER_NONE; outcome <= MYRKOSTI_MARKER_CANCELLED; outcome++) {
        const uint16_t timer = outcome == MYRKOSTI_MARKER_AWAITING ? 300 : 0;
        uint8_t out[WHOLE];
        begin();
        put_asked(table, PORTS, 1, (struct asked){outcome, timer, 0x01020304});
        IS(line(1, true, true), MYRKOSTI_DONE);
        IS(set_key(1, 2), MYRKOSTI_DONE);
        IS(myrkosti_fetch(table, SIZE, 1, out, sizeof out, &unread), MYRKOSTI_DONE);
        IS(start_in(table, SIZE, PORTS + 1), MYRKOSTI_TABLE_WRONG);
        HAS(1, outcome, timer, 0x01020304);
        for (int ticks = 0; ticks < 40; ticks++) {
            IS(tick(), MYRKOSTI_DONE);
        }
        HAS(1, outcome, timer == 0 ? 0 : timer - 40, 0x01020304);
        IS(start_in(table, SIZE, PORTS), MYRKOSTI_DONE);
        HAS(1, MYRKOSTI_MARKER_NONE, 0, 0);
        IS(respond(1, 0x01020303), MYRKOSTI_RESPONSE);
    }
}

/* moved back and forward the Marker is awaited as before, octet for octet in both forms, and its Response counts */
static void moves_carry_it(void)
{
    uint8_t old[MYRKOSTI_OLD_TABLE(PORTS)], groups[PORTS * MYRKOSTI_ASKED];
    begin();
    put_asked(table, PORTS, 1, (struct asked){MYRKOSTI_MARKER_NONE, 0, 0xa1a2a3a4});
    put_asked(table, PORTS, 2, (struct asked){MYRKOSTI_MARKER_TIMED_OUT, 0x0102, 0xb1b2b3b4});
    put_asked(table, PORTS, 3, (struct asked){MYRKOSTI_MARKER_CANCELLED, 0, 0xc1c2c3c4});
    ask(1, 0x0203);
    memcpy(groups, table + place(PORTS, 1, BEHIND), sizeof groups);
    IS(myrkosti_back(table, SIZE, old, sizeof old), MYRKOSTI_DONE);
    for (uint32_t port = 1; port <= PORTS; port++) {
        IS(memcmp(old + old_place(PORTS, port, BEHIND), groups + MYRKOSTI_ASKED * (port - 1), MYRKOSTI_ASKED), 0);
    }
    memset(table, 0xa5, SIZE);
    IS(myrkosti_forward(old, sizeof old, table, SIZE), MYRKOSTI_DONE);
    IS(memcmp(table + place(PORTS, 1, BEHIND), groups, sizeof groups), 0);
    HAS(1, MYRKOSTI_MARKER_AWAITING, 0x0203, 0xa1a2a3a5);
    HAS(3, MYRKOSTI_MARKER_CANCELLED, 0, 0xc1c2c3c4);
    IS(respond(1, 0xa1a2a3a4), MYRKOSTI_DONE);
}

/* ---- in any memory ---- */

/* calls on a table in which port 2 awaits or does not; port 1 is bystander */

static uint32_t fall(void)
{
    return line(2, false, false);
}

static uint32_t fill(void)
{
    return line(2, true, true);
}

static uint32_t repeat_line(void)
{
    return line(2, true, false);
}

static uint32_t fall_of_first(void)
{
    return line(1, false, true);
}

static uint32_t rise_of_third(void)
{
    return line(3, true, true);
}

static uint32_t set_other(void)
{
    return set_key(2, 9);
}

static uint32_t hear_awaited(void)
{
    uint8_t frame[WHOLE], out[WHOLE];
    uint32_t sent;
    put_response(frame, 2, SYSTEM, asked_of(table, PORTS, 2).number - 1);
    return myrkosti_receive(table, SIZE, 2, frame, sizeof frame, out, sizeof out, &sent, &unread);
}

static uint32_t hear_another(void)
{
    uint8_t frame[WHOLE], out[WHOLE];
    uint32_t sent;
    put_response(frame, 2, SYSTEM, asked_of(table, PORTS, 2).number);
    return myrkosti_receive(table, SIZE, 2, frame, sizeof frame, out, sizeof out, &sent, &unread);
}

static uint32_t ask_again(void)
{
    uint8_t out[WHOLE];
    return myrkosti_ask(table, SIZE, 2, 77, out, sizeof out);
}

static uint32_t refuse_ask(void)
{
    uint8_t out[WHOLE];
    return myrkosti_ask(table, SIZE, 2, 601, out, sizeof out);
}

static uint32_t fetch(void)
{
    uint8_t out[WHOLE];
    return myrkosti_fetch(table, SIZE, 1, out, sizeof out, &unread);
}

static uint32_t report_due(void)
{
    uint32_t ports;
    return myrkosti_due(table, SIZE, &ports);
}

static uint32_t report_port(void)
{
    uint8_t record[MYRKOSTI_RECORD];
    return myrkosti_port(table, SIZE, 2, record, sizeof record);
}

static uint32_t report_aggregator(void)
{
    uint32_t holding, attached, distributing, count, lowest;
    return myrkosti_aggregator(table, SIZE, 2, &holding, &attached, &distributing, &count, &lowest);
}

static uint32_t report_why(void)
{
    uint32_t cause, holder, ticks;
    return myrkosti_why(table, SIZE, 2, &cause, &holder, &ticks);
}

static uint32_t report_apart(void)
{
    uint32_t reasons;
    return myrkosti_apart(table, SIZE, 1, 2, &reasons);
}

enum effect { NOTHING, TICKED, ENDED_BY_LINE, ENDED_BY_RESPONSE, ASKED };

static const struct {
    const char *name;
    uint32_t (*make)(void);
    enum effect effect; /* on what port 2 asked for */
} ANY_CALL[] = {
    {"a tick", tick, TICKED}, {"its link falls", fall, ENDED_BY_LINE}, {"its duplex changes", fill, ENDED_BY_LINE},
    {"its line is repeated", repeat_line, NOTHING}, {"the link of another port falls", fall_of_first, NOTHING},
    {"the link of another port comes up", rise_of_third, NOTHING}, {"its settings", set_other, NOTHING},
    {"the Response to its last Marker", hear_awaited, ENDED_BY_RESPONSE}, {"the Response to none of its own", hear_another, NOTHING},
    {"an ask", ask_again, ASKED}, {"a refused ask", refuse_ask, NOTHING}, {"a fetch", fetch, NOTHING}, {"due", report_due, NOTHING},
    {"a port report", report_port, NOTHING}, {"an aggregator report", report_aggregator, NOTHING},
    {"why", report_why, NOTHING}, {"apart", report_apart, NOTHING},
};

static struct asked ended(struct asked a, uint8_t outcome)
{
    return a.outcome == MYRKOSTI_MARKER_AWAITING ? (struct asked){outcome, 0, a.number} : a;
}

static struct asked after(struct asked a, enum effect effect)
{
    switch (effect) {
    case TICKED:
        a.timer -= a.timer > 0;
        return a.timer == 0 ? ended(a, MYRKOSTI_MARKER_TIMED_OUT) : a;
    case ENDED_BY_LINE:
        return ended(a, MYRKOSTI_MARKER_CANCELLED);
    case ENDED_BY_RESPONSE:
        return ended(a, MYRKOSTI_MARKER_ANSWERED);
    case ASKED:
        return a.outcome == MYRKOSTI_MARKER_AWAITING ? a : (struct asked){MYRKOSTI_MARKER_AWAITING, 77, a.number + 1};
    case NOTHING:
        break;
    }
    return a;
}

/* what a call must be answered, where that depends on what was asked for */
static uint32_t expected_answer(struct asked a, enum effect effect, uint32_t otherwise)
{
    const bool awaits = a.outcome == MYRKOSTI_MARKER_AWAITING;
    if (effect == ENDED_BY_RESPONSE)
        return awaits ? MYRKOSTI_DONE : MYRKOSTI_RESPONSE;
    if (effect == ASKED)
        return awaits ? MYRKOSTI_ALREADY_AWAITING : MYRKOSTI_DONE;
    return otherwise;
}

/*
 * Every outcome with timers that no run leaves there too, at every call: what port 2 asked for is what the rules say, what port 1 did stays unless it is a
 * tick, and the rest of the table is what it would be if nobody had asked.
 */
static void try_any_memory(void)
{
    static const uint16_t TIMERS[] = {0, 1, 2, 255, 256, LONGEST};
    static const uint32_t NUMBERS[] = {0, 1, 0xffffffff, 0x80ff00ff};
    const struct asked first = {MYRKOSTI_MARKER_AWAITING, 5, 0x11223344}, none = {MYRKOSTI_MARKER_NONE, 0, 0};
    uint8_t started[SIZE];
    begin();
    memcpy(started, table, SIZE);
    for (size_t call = 0; call < sizeof ANY_CALL / sizeof ANY_CALL[0]; call++) {
        uint8_t unasked[SIZE];
        memcpy(table, started, SIZE);
        const uint32_t otherwise = ANY_CALL[call].make();
        memcpy(unasked, table, SIZE);
        for (unsigned i = 0; i < 5 * 6 * 4; i++) {
            const struct asked a = {(uint8_t)(i % 5), TIMERS[i / 5 % 6], NUMBERS[i / 30]};
            uint8_t expected[SIZE];
            memcpy(table, started, SIZE);
            put_asked(table, PORTS, 1, first);
            put_asked(table, PORTS, 2, a);
            memcpy(expected, unasked, SIZE);
            put_asked(expected, PORTS, 1, after(ANY_CALL[call].make == fall_of_first ? ended(first, MYRKOSTI_MARKER_CANCELLED) : first,
                                                ANY_CALL[call].effect == TICKED ? TICKED : NOTHING));
            put_asked(expected, PORTS, 2, after(a, ANY_CALL[call].effect));
            put_asked(expected, PORTS, 3, none);
            const uint32_t answer = ANY_CALL[call].make();
            check(answer == expected_answer(a, ANY_CALL[call].effect, otherwise), ANY_CALL[call].name);
            check(memcmp(table, expected, SIZE) == 0, ANY_CALL[call].name);
        }
    }
}

/* on a port without a link, in memory that no run makes, a line cancels nothing: there is no link that falls; but a Response is taken and a tick counts */
static void awaits_without_a_link(void)
{
    const struct asked a = {MYRKOSTI_MARKER_AWAITING, 2, 1};
    for (unsigned bits = 0; bits < 4; bits++) {
        begin();
        put_asked(table, PORTS, 3, a);
        IS(line(3, (bits & 1) != 0, (bits & 2) != 0), MYRKOSTI_DONE);
        HAS(3, MYRKOSTI_MARKER_AWAITING, 2, 1);
        IS(tick(), MYRKOSTI_DONE);
        HAS(3, MYRKOSTI_MARKER_AWAITING, 1, 1);
        IS(respond(3, 0), MYRKOSTI_DONE);
    }
}

/* every call on this table, the moves among them, and a start beside them that reads nothing of it */
static void refused_by_every_call(void)
{
    uint8_t before[SIZE], copy[SIZE], frame[WHOLE], out[WHOLE], record[MYRKOSTI_RECORD], old[MYRKOSTI_OLD_TABLE(PORTS)];
    const struct myrkosti_port_settings settings = settings_of(1);
    uint32_t a, b, c, d, e, sent;
    memcpy(before, table, SIZE);
    put_response(frame, 1, SYSTEM, 0);
    IS(myrkosti_ask(table, SIZE, 1, 1, out, sizeof out), MYRKOSTI_TABLE_WRONG);
    IS(myrkosti_receive(table, SIZE, 1, frame, sizeof frame, out, sizeof out, &sent, &unread), MYRKOSTI_TABLE_WRONG);
    IS(myrkosti_fetch(table, SIZE, 1, out, sizeof out, &unread), MYRKOSTI_TABLE_WRONG);
    IS(myrkosti_tick(table, SIZE), MYRKOSTI_TABLE_WRONG);
    IS(myrkosti_line(table, SIZE, 1, false, true), MYRKOSTI_TABLE_WRONG);
    IS(myrkosti_settings_with(table, SIZE, 1, &settings), MYRKOSTI_TABLE_WRONG);
    IS(myrkosti_port(table, SIZE, 1, record, sizeof record), MYRKOSTI_TABLE_WRONG);
    IS(record[MYRKOSTI_AT_MARKER], MYRKOSTI_MARKER_NONE);
    IS(myrkosti_number(record + MYRKOSTI_AT_MARKER_TIMER), 0);
    IS(myrkosti_long_number(record + MYRKOSTI_AT_MARKER_NUMBER), 0);
    IS(myrkosti_aggregator(table, SIZE, 1, &a, &b, &c, &d, &e), MYRKOSTI_TABLE_WRONG);
    IS(myrkosti_due(table, SIZE, &a), MYRKOSTI_TABLE_WRONG);
    IS(myrkosti_why(table, SIZE, 1, &a, &b, &c), MYRKOSTI_TABLE_WRONG);
    IS(myrkosti_apart(table, SIZE, 1, 2, &d), MYRKOSTI_TABLE_WRONG);
    IS(a | b | c | d, 0);
    IS(myrkosti_back(table, SIZE, old, sizeof old), MYRKOSTI_TABLE_WRONG);
    memcpy(old, table, front_size(PORTS, false));
    memcpy(old + front_size(PORTS, false), table + front_size(PORTS, true), MYRKOSTI_ASKED * PORTS);
    IS(myrkosti_forward(old, sizeof old, copy, SIZE), MYRKOSTI_TABLE_WRONG);
    IS(memcmp(table, before, SIZE), 0);
    IS(start_in(table, SIZE, PORTS), MYRKOSTI_DONE);
}

/* an outcome is 0 to 4, a timer at most 600, a number anything, on every port */
static void range(void)
{
    for (uint32_t port = 1; port <= PORTS; port++) {
        uint8_t record[MYRKOSTI_RECORD];
        begin();
        for (unsigned outcome = 0; outcome < 256; outcome++) {
            put_asked(table, PORTS, port, (struct asked){(uint8_t)outcome, 0, 0});
            IS(myrkosti_port(table, SIZE, 1, record, sizeof record), outcome <= MYRKOSTI_MARKER_CANCELLED ? MYRKOSTI_DONE : MYRKOSTI_TABLE_WRONG);
        }
        for (uint32_t timer = 0; timer <= 0xffff; timer++) {
            put_asked(table, PORTS, port, (struct asked){MYRKOSTI_MARKER_AWAITING, (uint16_t)timer, 0});
            IS(myrkosti_port(table, SIZE, 1, record, sizeof record), timer <= LONGEST ? MYRKOSTI_DONE : MYRKOSTI_TABLE_WRONG);
        }
        for (unsigned i = 0; i <= 32; i++) {
            put_asked(table, PORTS, port, (struct asked){MYRKOSTI_MARKER_NONE, 0, i < 32 ? 1u << i : 4294967295u});
            IS(myrkosti_port(table, SIZE, 1, record, sizeof record), MYRKOSTI_DONE);
        }
        put_asked(table, PORTS, port, (struct asked){MYRKOSTI_MARKER_CANCELLED + 1, 0, 0});
        refused_by_every_call();
        put_asked(table, PORTS, port, (struct asked){MYRKOSTI_MARKER_NONE, LONGEST + 1, 0});
        refused_by_every_call();
    }
}

/* ---- two switches ---- */

enum { US, THEM };

/* the Response that `them` gives to a frame on port 1, counted there; nothing where it gives none */
static bool answers(uint8_t *them, const uint8_t frame[WHOLE], uint8_t response[WHOLE], struct myrkosti_counters *counters)
{
    uint32_t sent;
    return myrkosti_receive(them, SIZE, 1, frame, WHOLE, response, WHOLE, &sent, counters) == MYRKOSTI_DONE && sent == WHOLE;
}

/* our Marker goes to another table of the library, which answers it; its Response comes back, is accepted, and both count */
static void joined(void)
{
    uint8_t them[SIZE], marker[WHOLE], response[WHOLE], out[WHOLE];
    struct myrkosti_counters counters[2] = {{0}};
    uint32_t sent = 9;
    begin();
    memcpy(them, table, SIZE);
    them[3] ^= 1; /* another system */
    for (uint32_t markers = 1; markers <= 3; markers++) {
        IS(myrkosti_ask(table, SIZE, 1, 10, marker, sizeof marker), MYRKOSTI_DONE);
        IS(answers(them, marker, response, &counters[THEM]), true);
        IS(memcmp(response + REQUESTER_AT, marker + REQUESTER_AT, REQUESTER_END - REQUESTER_AT), 0);
        IS(tick(), MYRKOSTI_DONE);
        IS(myrkosti_receive(table, SIZE, 1, response, sizeof response, out, sizeof out, &sent, &counters[US]), MYRKOSTI_DONE);
        IS(sent, 0);
        HAS(1, MYRKOSTI_MARKER_ANSWERED, 0, markers);
        IS(counters[THEM].markers_received, markers);
        IS(counters[THEM].marker_responses_sent, markers);
        IS(counters[US].marker_responses_received, markers);
    }
    IS(myrkosti_receive(table, SIZE, 1, response, sizeof response, out, sizeof out, &sent, &counters[US]), MYRKOSTI_RESPONSE);
    IS(counters[US].marker_responses_received, 4);
    IS(counters[US].markers_received | counters[US].lacpdus_received | counters[US].unknown_received | counters[US].illegal_received |
       counters[US].lacpdus_sent | counters[US].marker_responses_sent, 0);
}

/* a neighbour that does not collect answers none, and the Marker times out */
static void unanswered(void)
{
    uint8_t them[SIZE], marker[WHOLE], response[WHOLE];
    begin();
    memcpy(them, table, SIZE);
    them[place(PORTS, 1, MYRKOSTI_AT_MUX)] = MYRKOSTI_MUX_ATTACHED;
    IS(myrkosti_ask(table, SIZE, 1, 2, marker, sizeof marker), MYRKOSTI_DONE);
    IS(answers(them, marker, response, &unread), false);
    IS(tick(), MYRKOSTI_DONE);
    IS(tick(), MYRKOSTI_DONE);
    HAS(1, MYRKOSTI_MARKER_TIMED_OUT, 0, 1);
}

int main(void)
{
    marker_octets();
    marker_of_every_port();
    numbers_wrap();
    refuse_in_order();
    refuse_arguments();
    refuse_unless_distributing();
    refusals_use_no_number();
    answered();
    timed_out();
    refused_ticks();
    cancelled();
    one_wrong_bit();
    other_octets();
    no_response();
    buffer_of_a_response();
    on_another_port();
    late_response();
    leaves_its_trunk();
    outcome_stays();
    moves_carry_it();
    try_any_memory();
    awaits_without_a_link();
    range();
    joined();
    unanswered();
    return finish("Markers of our own");
}
