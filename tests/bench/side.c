#include "side.h"

#ifndef WITHOUT_MODEL
/* rust/bench-model */
uint32_t model_start(uint8_t *table, size_t table_len, uint32_t ports,
                     uint16_t system_priority, const uint8_t system[6], uint16_t collector_max_delay,
                     const uint8_t address[6], uint16_t key, uint16_t port_priority,
                     bool activity, bool timeout, bool aggregation, const uint8_t partner[MYRKOSTI_BLOCK]);
uint32_t model_receive(uint8_t *table, size_t table_len, uint32_t port,
                       const uint8_t *frame, size_t frame_len, uint8_t *out, size_t out_len, uint32_t *sent,
                       struct myrkosti_counters *counters);
uint32_t model_tick(uint8_t *table, size_t table_len);
uint32_t model_line(uint8_t *table, size_t table_len, uint32_t port, bool up, bool full);
uint32_t model_settings(uint8_t *table, size_t table_len, uint32_t port,
                        const uint8_t address[6], uint16_t key, uint16_t port_priority,
                        bool activity, bool timeout, bool aggregation, const uint8_t partner[MYRKOSTI_BLOCK]);
uint32_t model_fetch(uint8_t *table, size_t table_len, uint32_t port, uint8_t *out, size_t out_len, struct myrkosti_counters *counters);
uint32_t model_ask(uint8_t *table, size_t table_len, uint32_t port, uint32_t ticks, uint8_t *out, size_t out_len);
uint32_t model_port(const uint8_t *table, size_t table_len, uint32_t port, uint8_t *record, size_t record_len);
uint32_t model_aggregator(const uint8_t *table, size_t table_len, uint32_t aggregator,
                          uint32_t *holding, uint32_t *attached, uint32_t *distributing,
                          uint32_t *count, uint32_t *lowest);
uint32_t model_due(const uint8_t *table, size_t table_len, uint32_t *ports);
uint32_t model_why(const uint8_t *table, size_t table_len, uint32_t port, uint32_t *cause, uint32_t *holder, uint32_t *ticks);
uint32_t model_apart(const uint8_t *table, size_t table_len, uint32_t first, uint32_t second, uint32_t *reasons);
#endif

const struct side SIDES[] = {
    {"library", myrkosti_start, myrkosti_receive, myrkosti_tick, myrkosti_line, myrkosti_settings, myrkosti_fetch, myrkosti_ask,
     myrkosti_port, myrkosti_aggregator, myrkosti_due, myrkosti_why, myrkosti_apart},
#ifndef WITHOUT_MODEL
    {"model", model_start, model_receive, model_tick, model_line, model_settings, model_fetch, model_ask, model_port, model_aggregator, model_due,
     model_why, model_apart},
#endif
};
const size_t SIDE_COUNT = sizeof SIDES / sizeof SIDES[0];
