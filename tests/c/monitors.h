/* Churn detection as figures 43-15 and 43-16 have it, over the octets of a table. */
#ifndef MONITORS_H
#define MONITORS_H

#include "layout.h"

enum { MINUTE = 600 }; /* ticks: Churn_Detection_Time */

enum which { ACTOR, PARTNER };

/* of each monitor the octets of the record: its own, and the state octet whose Synchronization it watches */
static const struct {
    size_t state, timer, count, watches;
} MONITOR_AT[2] = {
    {MYRKOSTI_AT_ACTOR_CHURN, MYRKOSTI_AT_ACTOR_CHURN_TIMER, MYRKOSTI_AT_ACTOR_CHURN_COUNT, MYRKOSTI_AT_ACTOR_STATE},
    {MYRKOSTI_AT_PARTNER_CHURN, MYRKOSTI_AT_PARTNER_CHURN_TIMER, MYRKOSTI_AT_PARTNER_CHURN_COUNT, MYRKOSTI_AT_PARTNER + MYRKOSTI_BLOCK_STATE},
};

struct monitor {
    uint8_t state;
    uint16_t timer;
    uint32_t count;
};

/* as it begins: nothing is counted, and the minute is ahead */
static const struct monitor BEGUN = {MYRKOSTI_CHURN_MONITOR, MINUTE, 0};

/* a monitor of a port, as it lies in a table */
static inline struct monitor monitor_of(const uint8_t *table, uint32_t ports, uint32_t port, enum which which)
{
    uint8_t record[MYRKOSTI_RECORD];
    gather(table, ports, port, record);
    return (struct monitor){record[MONITOR_AT[which].state], myrkosti_number(record + MONITOR_AT[which].timer),
                            myrkosti_long_number(record + MONITOR_AT[which].count)};
}

static inline void put_monitor(uint8_t *table, uint32_t ports, uint32_t port, enum which which, struct monitor m)
{
    table[place(ports, port, MONITOR_AT[which].state)] = m.state;
    myrkosti_put_number(table + place(ports, port, MONITOR_AT[which].timer), m.timer);
    myrkosti_put_number(table + place(ports, port, MONITOR_AT[which].count), (uint16_t)(m.count >> 16));
    myrkosti_put_number(table + place(ports, port, MONITOR_AT[which].count + 2), (uint16_t)m.count);
}

static inline struct monitor entered(struct monitor m, uint8_t state)
{
    m.state = state;
    m.timer = state == MYRKOSTI_CHURN_MONITOR ? MINUTE : 0;
    m.count += state == MYRKOSTI_CHURN;
    return m;
}

/* the machine, by link and Synchronization as they stand after step 6 */
static inline struct monitor watched(struct monitor m, bool up, bool in_sync)
{
    if (!up)
        return entered(m, MYRKOSTI_CHURN_MONITOR);
    if (in_sync)
        return m.state == MYRKOSTI_NO_CHURN ? m : entered(m, MYRKOSTI_NO_CHURN);
    if (m.state == MYRKOSTI_NO_CHURN)
        return entered(m, MYRKOSTI_CHURN_MONITOR);
    return m.state == MYRKOSTI_CHURN_MONITOR && m.timer == 0 ? entered(m, MYRKOSTI_CHURN) : m;
}

/* runs both machines of every port on the records as they stand, at a tick behind its first step */
static inline void watch_all(uint8_t *table, uint32_t ports, bool tick)
{
    for (uint32_t port = 1; port <= ports; port++) {
        for (enum which which = ACTOR; which <= PARTNER; which++) {
            const bool up = table[place(ports, port, MYRKOSTI_AT_LINK)] != 0;
            const bool in_sync = (table[place(ports, port, MONITOR_AT[which].watches)] & MYRKOSTI_SYNCHRONIZATION) != 0;
            struct monitor m = monitor_of(table, ports, port, which);
            m.timer -= tick && m.timer > 0;
            put_monitor(table, ports, port, which, watched(m, up, in_sync));
        }
    }
}

/* both machines of every port anew, and a run of them */
static inline void begin_all(uint8_t *table, uint32_t ports)
{
    for (uint32_t port = 1; port <= ports; port++) {
        put_monitor(table, ports, port, ACTOR, BEGUN);
        put_monitor(table, ports, port, PARTNER, BEGUN);
    }
    watch_all(table, ports, false);
}

#endif
