/* Octets of a port's record that are out of range. */
#ifndef RANGES_H
#define RANGES_H

#include "myrkosti.h"

struct wrong_octet {
    unsigned at;
    uint8_t octet;
};

/* of each field that has a range, octets outside it in a table of so many ports, whatever stands beside them */
#define OUT_OF_RANGE_OF(ports) \
    { \
        {MYRKOSTI_AT_RECEIVE, 6}, {MYRKOSTI_AT_PERIODIC, 4}, {MYRKOSTI_AT_MUX, 5}, {MYRKOSTI_AT_SELECTED, 2}, \
        {MYRKOSTI_AT_AGGREGATOR, 0}, {MYRKOSTI_AT_AGGREGATOR, (ports) + 1}, {MYRKOSTI_AT_NTT, 2}, {MYRKOSTI_AT_LINK, 2}, \
        {MYRKOSTI_AT_DUPLEX, 2}, {MYRKOSTI_AT_CURRENT_WHILE, 4}, {MYRKOSTI_AT_PERIODIC_TIMER, 2}, {MYRKOSTI_AT_WAIT_TIMER, 21}, \
        {MYRKOSTI_AT_AGES, 11}, {MYRKOSTI_AT_AGES + 1, 11}, {MYRKOSTI_AT_AGES + 2, 254}, \
        {MYRKOSTI_AT_ACTOR_CHURN, 3}, {MYRKOSTI_AT_PARTNER_CHURN, 3}, \
        {MYRKOSTI_AT_ACTOR_CHURN_TIMER, 3}, {MYRKOSTI_AT_PARTNER_CHURN_TIMER, 3}, \
        {MYRKOSTI_AT_MARKER, 5}, {MYRKOSTI_AT_MARKER, 255}, {MYRKOSTI_AT_MARKER_TIMER, 3}, \
    }

#endif
