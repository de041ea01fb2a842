/* One implementation of the calls of include/myrkosti.h: the library, or the independent model with the same signatures. */
#ifndef SIDE_H
#define SIDE_H

#include "myrkosti.h"

struct side {
    const char *name;
    uint32_t (*start)(uint8_t *table, size_t table_len, uint32_t ports,
                      uint16_t system_priority, const uint8_t system[6], uint16_t collector_max_delay,
                      const uint8_t address[6], uint16_t key, uint16_t port_priority,
                      bool activity, bool timeout, bool aggregation, const uint8_t partner[MYRKOSTI_BLOCK]);
    uint32_t (*receive)(uint8_t *table, size_t table_len, uint32_t port,
                        const uint8_t *frame, size_t frame_len, uint8_t *out, size_t out_len, uint32_t *sent,
                        struct myrkosti_counters *counters);
    uint32_t (*tick)(uint8_t *table, size_t table_len);
    uint32_t (*line)(uint8_t *table, size_t table_len, uint32_t port, bool up, bool full);
    uint32_t (*settings)(uint8_t *table, size_t table_len, uint32_t port,
                         const uint8_t address[6], uint16_t key, uint16_t port_priority,
                         bool activity, bool timeout, bool aggregation, const uint8_t partner[MYRKOSTI_BLOCK]);
    uint32_t (*fetch)(uint8_t *table, size_t table_len, uint32_t port, uint8_t *out, size_t out_len, struct myrkosti_counters *counters);
    uint32_t (*ask)(uint8_t *table, size_t table_len, uint32_t port, uint32_t ticks, uint8_t *out, size_t out_len);
    uint32_t (*port)(const uint8_t *table, size_t table_len, uint32_t port, uint8_t *record, size_t record_len);
    uint32_t (*aggregator)(const uint8_t *table, size_t table_len, uint32_t aggregator,
                           uint32_t *holding, uint32_t *attached, uint32_t *distributing,
                           uint32_t *count, uint32_t *lowest);
    uint32_t (*due)(const uint8_t *table, size_t table_len, uint32_t *ports);
    uint32_t (*why)(const uint8_t *table, size_t table_len, uint32_t port, uint32_t *cause, uint32_t *holder, uint32_t *ticks);
    uint32_t (*apart)(const uint8_t *table, size_t table_len, uint32_t first, uint32_t second, uint32_t *reasons);
};

/* The library first; the model after it, where the program is linked with the model. */
extern const struct side SIDES[];
extern const size_t SIDE_COUNT;

#endif
