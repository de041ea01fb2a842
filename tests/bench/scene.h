/* The tables and frames with which calls are measured, and the calls. */
#ifndef SCENE_H
#define SCENE_H

#include "side.h"

enum { MOST = MYRKOSTI_TABLE(MYRKOSTI_PORTS) };

/* Tables of one port count, and frames for port 1. */
struct scene {
    uint32_t ports;
    size_t size;
    uint8_t trunk[MOST];   /* every port distributes in one trunk, and nothing is due */
    uint8_t due[MOST];     /* the same, and the last port has an LACPDU to send */
    uint8_t awaiting[MOST]; /* the same as the first, and port 1 awaits a Marker's Response */
    uint8_t waiting[MOST]; /* port 1 has just left the trunk: every port waits, port 1 for aggregator 1, the others for aggregator 2 */
    uint8_t apart[MOST];   /* every port has a neighbour of its own and distributes alone, on its own aggregator */
    uint8_t repeated[MYRKOSTI_FRAME]; /* what the partner of port 1 says again and again */
    uint8_t moving[MYRKOSTI_FRAME];   /* the same with another key of the partner */
    uint8_t response[MYRKOSTI_FRAME]; /* the one that it awaits */
};

/* What a call writes to. */
struct area {
    uint8_t table[MOST];
    uint8_t out[MYRKOSTI_FRAME];
    uint8_t record[MYRKOSTI_RECORD];
    uint32_t sets[5];
    uint32_t ports;
    uint32_t sent;
    struct myrkosti_counters counters;
};

/* A call that is measured: the table before it, the call, and its answer. */
struct call {
    const char *name;
    const uint8_t *(*before)(const struct scene *);
    uint32_t (*run)(const struct side *, const struct scene *, struct area *);
    uint32_t answer;
};

extern const struct call CALLS[];
extern const size_t CALL_COUNT;

/* Makes the tables of that many ports, by the library. False if one is not as its comment says. */
bool make_scene(struct scene *scene, uint32_t ports);

/* The area before a call: its table, and everything that it may write cleared. */
void restore(const struct call *call, const struct scene *scene, struct area *area);

#endif
