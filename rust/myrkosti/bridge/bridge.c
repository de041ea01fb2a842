/*
 * Runs the calls of include/myrkosti.h for a program that does not link the archive itself: one of another machine, or one that is to be lent
 * memory with nothing behind it. It reads batches of requests from its standard input and writes the replies of a batch, in order, to its
 * standard output, until the input ends.
 *
 * A batch is its length in octets (4), then its requests, one after the other. A request is
 *
 *    0       call: 0 table_size, 1 start, 2 receive, 3 tick, 4 line, 5 settings, 6 fetch, 7 port, 8 aggregator, 9 due,
 *            10 version, 11 old_table_size, 12 forward, 13 back, 14 ask, 15 why, 16 apart
 *    1       flags: bit 0 activity or up; bit 1 timeout or full; bit 2 aggregation
 *    2-5     ports, port, the first of two ports, or aggregator
 *    6-7     system priority          8-9     CollectorMaxDelay
 *   10-11    key                     12-13    port priority
 *   14-19    system                  20-25    address
 *   26-40    partner
 *   41-44    octets of the table     45-48    octets of the frame
 *   49-52    octets of what is written beside the table: the outgoing buffer, the record, or the table that a move makes of the first
 *   53-56    ticks for which a Marker is awaited, or the second of two ports
 *   57-84    seven counters of a port
 *
 * and then those octets. A reply is answer (4), sent (4), five numbers of an aggregator (4 each), the set of what is due (4), the three
 * numbers of why (4 each), the set of reasons (4), the seven counters (4 each), then the octets of the table and of what is written beside it.
 * A number that a call does not write comes back as 0xEE in each octet, a counter as it came. Numbers are low octet first.
 *
 * The three and the counters are lent so that they end where memory ends: a call that reads or writes past them is stopped by the machine.
 * Octets before them are looked at after each call.
 */
#define _GNU_SOURCE
#include "myrkosti.h"

#include <stdio.h>
#include <stdlib.h>
#include <string.h>
#include <sys/mman.h>
#include <unistd.h>

enum { COUNTERS = 7, AT_COUNTERS = 57, REQUEST = AT_COUNTERS + 4 * COUNTERS, PAGE = 65536, AREA = 4 * PAGE, BEFORE = 64, UNTOUCHED = 0xee, GUARD = 0xa5, BATCH = 1 << 24 };

_Static_assert(sizeof(struct myrkosti_counters) == COUNTERS * sizeof(uint32_t), "the record is its counters alone");

static void fail(const char *why)
{
    fprintf(stderr, "bridge: %s\n", why);
    exit(3);
}

/* whether all octets were read; false if the input ended before the first */
static bool read_all(uint8_t *to, size_t length)
{
    size_t got = 0;
    while (got < length) {
        ssize_t n = read(0, to + got, length - got);
        if (n < 0 || (n == 0 && got > 0)) {
            fail("the input broke off");
        }
        if (n == 0) {
            return false;
        }
        got += (size_t)n;
    }
    return true;
}

static void write_all(const uint8_t *from, size_t length)
{
    while (length > 0) {
        ssize_t n = write(1, from, length);
        if (n <= 0) {
            fail("the output broke off");
        }
        from += n;
        length -= (size_t)n;
    }
}

static uint32_t number(const uint8_t *at, unsigned octets)
{
    uint32_t n = 0;
    for (unsigned i = 0; i < octets; i++) {
        n |= (uint32_t)at[i] << 8 * i;
    }
    return n;
}

static uint8_t *put_number(uint8_t *at, uint32_t n)
{
    for (unsigned i = 0; i < 4; i++) {
        at[i] = (uint8_t)(n >> 8 * i);
    }
    return at + 4;
}

static uint8_t *put_octets(uint8_t *at, const uint8_t *octets, size_t length)
{
    memcpy(at, octets, length);
    return at + length;
}

/* the place after which no octet can be read or written */
static uint8_t *end_of_memory(void)
{
    uint8_t *area = mmap(NULL, AREA + PAGE, PROT_READ | PROT_WRITE, MAP_PRIVATE | MAP_ANONYMOUS, -1, 0);
    if (area == MAP_FAILED || mprotect(area + AREA, PAGE, PROT_NONE) != 0) {
        fail("no memory");
    }
    memset(area, GUARD, AREA);
    return area + AREA;
}

/* lends a copy of the octets that ends at `end` */
static uint8_t *lend(uint8_t *end, const uint8_t *octets, size_t length)
{
    if (length > AREA - BEFORE) {
        fail("a request lends too much");
    }
    memset(end - length - BEFORE, GUARD, BEFORE);
    memcpy(end - length, octets, length);
    return end - length;
}

static void look_before(const uint8_t *lent)
{
    for (unsigned i = 1; i <= BEFORE; i++) {
        if (lent[-(int)i] != GUARD) {
            fail("a call wrote before the memory that it was lent");
        }
    }
}

static uint8_t *table_end, *frame_end, *out_end, *counters_end;

/* lends the counters whose octets these are */
static struct myrkosti_counters *lend_counters(const uint8_t *octets)
{
    uint32_t counters[COUNTERS];
    for (unsigned i = 0; i < COUNTERS; i++) {
        counters[i] = number(octets + 4 * i, 4);
    }
    return (void *)lend(counters_end, (const uint8_t *)counters, sizeof counters);
}

static uint8_t *put_counters(uint8_t *at, const struct myrkosti_counters *lent)
{
    uint32_t counters[COUNTERS];
    memcpy(counters, lent, sizeof counters);
    for (unsigned i = 0; i < COUNTERS; i++) {
        at = put_number(at, counters[i]);
    }
    return at;
}

/* performs the request at *request, moves it on, and gives the place after the reply */
static uint8_t *perform(const uint8_t **request, const uint8_t *end, uint8_t *reply)
{
    const uint8_t *r = *request;
    if (end - r < REQUEST) {
        fail("a request broke off");
    }
    uint32_t table_len = number(r + 41, 4), frame_len = number(r + 45, 4), out_len = number(r + 49, 4);
    if ((uint64_t)table_len + frame_len + out_len > (uint64_t)(end - r - REQUEST)) {
        fail("a request lends more than it has");
    }
    uint8_t *table = lend(table_end, r + REQUEST, table_len);
    uint8_t *frame = lend(frame_end, r + REQUEST + table_len, frame_len);
    uint8_t *out = lend(out_end, r + REQUEST + table_len + frame_len, out_len);
    struct myrkosti_counters *counters = lend_counters(r + AT_COUNTERS);

    uint32_t n = number(r + 2, 4), other = number(r + 53, 4), answer, sent, five[5], due, why[3], reasons;
    uint16_t system_priority = (uint16_t)number(r + 6, 2), delay = (uint16_t)number(r + 8, 2);
    uint16_t key = (uint16_t)number(r + 10, 2), priority = (uint16_t)number(r + 12, 2);
    const uint8_t *system = r + 14, *address = r + 20, *partner = r + 26;
    bool first = r[1] & 1, second = r[1] & 2, third = r[1] & 4;
    memset(&sent, UNTOUCHED, sizeof sent);
    memset(five, UNTOUCHED, sizeof five);
    memset(&due, UNTOUCHED, sizeof due);
    memset(why, UNTOUCHED, sizeof why);
    memset(&reasons, UNTOUCHED, sizeof reasons);

    switch (r[0]) {
    case 0: answer = myrkosti_table_size(n); break;
    case 1:
        answer = myrkosti_start(table, table_len, n, system_priority, system, delay, address, key, priority, first, second, third, partner);
        break;
    case 2: answer = myrkosti_receive(table, table_len, n, frame, frame_len, out, out_len, &sent, counters); break;
    case 3: answer = myrkosti_tick(table, table_len); break;
    case 4: answer = myrkosti_line(table, table_len, n, first, second); break;
    case 5: answer = myrkosti_settings(table, table_len, n, address, key, priority, first, second, third, partner); break;
    case 6: answer = myrkosti_fetch(table, table_len, n, out, out_len, counters); break;
    case 7: answer = myrkosti_port(table, table_len, n, out, out_len); break;
    case 8: answer = myrkosti_aggregator(table, table_len, n, &five[0], &five[1], &five[2], &five[3], &five[4]); break;
    case 9: answer = myrkosti_due(table, table_len, &due); break;
    case 10: answer = myrkosti_version(); break;
    case 11: answer = myrkosti_old_table_size(n); break;
    case 12: answer = myrkosti_forward(table, table_len, out, out_len); break;
    case 13: answer = myrkosti_back(table, table_len, out, out_len); break;
    case 14: answer = myrkosti_ask(table, table_len, n, other, out, out_len); break;
    case 15: answer = myrkosti_why(table, table_len, n, &why[0], &why[1], &why[2]); break;
    case 16: answer = myrkosti_apart(table, table_len, n, other, &reasons); break;
    default: fail("no such call"); return reply;
    }

    if (memcmp(frame, r + REQUEST + table_len, frame_len) != 0) {
        fail("a call wrote into the frame");
    }
    look_before(table);
    look_before(frame);
    look_before(out);
    look_before((const uint8_t *)counters);
    reply = put_number(reply, answer);
    reply = put_number(reply, sent);
    for (unsigned i = 0; i < 5; i++) {
        reply = put_number(reply, five[i]);
    }
    reply = put_number(reply, due);
    for (unsigned i = 0; i < 3; i++) {
        reply = put_number(reply, why[i]);
    }
    reply = put_number(reply, reasons);
    reply = put_counters(reply, counters);
    reply = put_octets(reply, table, table_len);
    *request = r + REQUEST + table_len + frame_len + out_len;
    return put_octets(reply, out, out_len);
}

int main(void)
{
    uint8_t length[4];
    uint8_t *requests = malloc(BATCH), *replies = malloc(BATCH); /* a reply is shorter than its request */
    if (requests == NULL || replies == NULL) {
        fail("no memory");
    }
    table_end = end_of_memory();
    frame_end = end_of_memory();
    out_end = end_of_memory();
    counters_end = end_of_memory();
    while (read_all(length, sizeof length)) {
        uint32_t octets = number(length, 4);
        if (octets > BATCH) {
            fail("a batch is too long");
        }
        if (octets > 0 && !read_all(requests, octets)) {
            fail("the input broke off");
        }
        const uint8_t *request = requests, *end = requests + octets;
        uint8_t *reply = replies;
        while (request < end) {
            reply = perform(&request, end, reply);
        }
        write_all(replies, (size_t)(reply - replies));
    }
    return 0;
}
