/* Where the octets of a port's record lie in the memory of a table: in three places, and in two of the old form (docs/TABLE.md). */
#ifndef LAYOUT_H
#define LAYOUT_H

#include "myrkosti.h"

enum {
    FRONT = MYRKOSTI_AT_ACTOR_CHURN, /* octets of a record that lie port by port behind the header */
    BEHIND = MYRKOSTI_AT_MARKER,     /* the first of those that lie behind everything else, MYRKOSTI_ASKED of each port */
    GROUP = BEHIND - FRONT           /* octets between, which the old form has not */
};

/* the octets of a table of `ports` ports that tell of no Marker, with churn fields or without */
static inline size_t front_size(uint32_t ports, bool churn)
{
    return MYRKOSTI_HEADER + (churn ? BEHIND : FRONT) * ports;
}

/* the place of octet `at` of the record of `port`, from 1, in a table of `ports` ports */
static inline size_t place(uint32_t ports, uint32_t port, size_t at)
{
    if (at < FRONT)
        return MYRKOSTI_HEADER + FRONT * (port - 1) + at;
    if (at < BEHIND)
        return front_size(ports, false) + GROUP * (port - 1) + (at - FRONT);
    return front_size(ports, true) + MYRKOSTI_ASKED * (port - 1) + (at - BEHIND);
}

/* the same in a table of the old form, for an octet that it has */
static inline size_t old_place(uint32_t ports, uint32_t port, size_t at)
{
    return at < FRONT ? place(ports, port, at) : front_size(ports, false) + MYRKOSTI_ASKED * (port - 1) + (at - BEHIND);
}

/* the record as it lies there */
static inline void gather(const uint8_t *table, uint32_t ports, uint32_t port, uint8_t record[MYRKOSTI_RECORD])
{
    for (size_t at = 0; at < MYRKOSTI_RECORD; at++)
        record[at] = table[place(ports, port, at)];
}

#endif
