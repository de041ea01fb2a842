/*
 * The libraries that a switch has before and after new firmware is loaded, by the calls that all have: that of today; one of yesterday, version 0x0100, whose
 * tables are of the old form; and one of lately, version 0x0200, whose tables are of the form of today. Neither of the last two can ask for a Marker, and
 * their tables end without MYRKOSTI_ASKED octets of each port. tools/yesterday.sh makes them and puts `yesterday_` and `lately_` before the names of their
 * functions.
 */
#ifndef YESTERDAY_H
#define YESTERDAY_H

#include "myrkosti.h"

#include <string.h>

/* a call of yesterday's takes and gives what today's does, but for the two that count; of lately's all do */
#define EACH_CALL_ALIKE(of) of(version) of(table_size) of(start) of(tick) of(line) of(settings) of(due) of(port) of(aggregator)
#define EACH_CALL(of) EACH_CALL_ALIKE(of) of(receive) of(fetch)

#define DECLARED(call) extern __typeof__(myrkosti_##call) yesterday_myrkosti_##call;
#define DECLARED_LATELY(call) extern __typeof__(myrkosti_##call) lately_myrkosti_##call;
#define MEMBER(call) __typeof__(myrkosti_##call) *call;
#define OF_TODAY(call) .call = myrkosti_##call,
#define OF_YESTERDAY(call) .call = yesterday_myrkosti_##call,
#define OF_LATELY(call) .call = lately_myrkosti_##call,

EACH_CALL(DECLARED_LATELY)
EACH_CALL_ALIKE(DECLARED)
extern uint32_t yesterday_myrkosti_receive(uint8_t *table, size_t table_len, uint32_t port,
                                           const uint8_t *frame, size_t frame_len, uint8_t *out, size_t out_len, uint32_t *sent);
extern uint32_t yesterday_myrkosti_fetch(uint8_t *table, size_t table_len, uint32_t port, uint8_t *out, size_t out_len);

/* yesterday's library knows no counters, so they stand still */
static uint32_t uncounted_receive(uint8_t *table, size_t table_len, uint32_t port, const uint8_t *frame, size_t frame_len,
                                  uint8_t *out, size_t out_len, uint32_t *sent, struct myrkosti_counters *counters)
{
    (void)counters;
    return yesterday_myrkosti_receive(table, table_len, port, frame, frame_len, out, out_len, sent);
}

static uint32_t uncounted_fetch(uint8_t *table, size_t table_len, uint32_t port, uint8_t *out, size_t out_len, struct myrkosti_counters *counters)
{
    (void)counters;
    return yesterday_myrkosti_fetch(table, table_len, port, out, out_len);
}

struct library {
    EACH_CALL(MEMBER)
};

static const struct library TODAY = {EACH_CALL(OF_TODAY)};
static const struct library YESTERDAY = {EACH_CALL_ALIKE(OF_YESTERDAY).receive = uncounted_receive, .fetch = uncounted_fetch};
static const struct library LATELY = {EACH_CALL(OF_LATELY)};

/* ---- a table goes from one library to another, as docs/GUIDE-FIRMWARE.md has it ---- */

/* a table of a library that knew of no Marker becomes one of its form, of so many octets: none was asked for */
static void put_zeros_behind(uint8_t *table, size_t length, size_t whole)
{
    memset(table + length, 0, whole - length);
}

/* a table of yesterday's or lately's for today's library, in memory of just its size */
static uint32_t load_today(const struct library *from, const uint8_t *table, uint8_t *today)
{
    const uint32_t ports = table[0];
    const size_t length = from->table_size(ports), size = myrkosti_table_size(ports), old_size = myrkosti_old_table_size(ports);
    uint8_t old[MYRKOSTI_OLD_TABLE(MYRKOSTI_PORTS)];
    if (from == &LATELY) {
        memcpy(today, table, length);
        put_zeros_behind(today, length, size);
        return MYRKOSTI_DONE;
    }
    memcpy(old, table, length);
    put_zeros_behind(old, length, old_size);
    return myrkosti_forward(old, old_size, today, size);
}

/* and back: what was asked for is dropped */
static uint32_t load_before(const struct library *to, const uint8_t *today, uint8_t *table)
{
    const uint32_t ports = today[0];
    const size_t size = myrkosti_table_size(ports), old_size = myrkosti_old_table_size(ports);
    uint8_t old[MYRKOSTI_OLD_TABLE(MYRKOSTI_PORTS)];
    const uint32_t answer = to == &LATELY ? MYRKOSTI_DONE : myrkosti_back(today, size, old, old_size);
    if (answer == MYRKOSTI_DONE)
        memcpy(table, to == &LATELY ? today : old, to->table_size(ports));
    return answer;
}

#endif
