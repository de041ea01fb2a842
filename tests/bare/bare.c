/*
 * Two switches of the library on a machine without a system: two links between them come up, the tables tick until both links carry as one
 * trunk on both sides, then one link falls. tools/bare-test.sh runs it under an emulator; main answers 0 if all was as it should be.
 */
#include "myrkosti.h"

enum { PORTS = 2, BOTH = 3, SIDES = 2, PATIENCE = 100 };

void say(const char *words);

static uint8_t table[SIDES][MYRKOSTI_TABLE(PORTS)];
static struct myrkosti_counters counters[SIDES][PORTS];

static bool start(uint32_t side)
{
    const uint8_t address[6] = {2, 0, 0, 0, 0, (uint8_t)(side + 1)};
    const struct myrkosti_system system = myrkosti_usual_system(address);
    const struct myrkosti_port_settings settings = myrkosti_usual_settings(address, 1);
    return myrkosti_start_with(table[side], sizeof table[side], PORTS, &system, &settings) == MYRKOSTI_DONE;
}

static bool line(uint32_t port, bool up)
{
    bool done = true;
    for (uint32_t side = 0; side < SIDES; side++) {
        done = myrkosti_line(table[side], sizeof table[side], port, up, true) == MYRKOSTI_DONE && done;
    }
    return done;
}

/* What is due on each side reaches the other. */
static void exchange(void)
{
    for (uint32_t side = 0; side < SIDES; side++) {
        uint32_t ports, sent;
        uint8_t frame[MYRKOSTI_FRAME], answer[MYRKOSTI_FRAME];
        myrkosti_due(table[side], sizeof table[side], &ports);
        for (uint32_t port = 1; port <= PORTS; port++) {
            if ((ports >> (port - 1) & 1) != 0
                && myrkosti_fetch(table[side], sizeof table[side], port, frame, sizeof frame, &counters[side][port - 1]) == MYRKOSTI_DONE) {
                myrkosti_receive(table[1 - side], sizeof table[side], port, frame, sizeof frame, answer, sizeof answer, &sent, &counters[1 - side][port - 1]);
            }
        }
    }
}

/* Whether just these ports carry, as one trunk, on both sides. */
static bool carry(uint32_t ports)
{
    bool all = true;
    for (uint32_t side = 0; side < SIDES; side++) {
        uint32_t holding, attached, distributing, count, lowest;
        all = myrkosti_aggregator(table[side], sizeof table[side], 1, &holding, &attached, &distributing, &count, &lowest) == MYRKOSTI_DONE
              && distributing == ports && all;
    }
    return all;
}

/* Ticks until just these ports carry, if that is in a while. */
static uint32_t ticks_until(uint32_t ports)
{
    for (uint32_t ticks = 0; ticks < PATIENCE; ticks++) {
        exchange();
        if (carry(ports)) {
            return ticks;
        }
        for (uint32_t side = 0; side < SIDES; side++) {
            myrkosti_tick(table[side], sizeof table[side]);
        }
    }
    return PATIENCE;
}

int main(void)
{
    if (!myrkosti_fits() || myrkosti_table_size(PORTS) != sizeof table[0] || !start(0) || !start(1) || !line(1, true) || !line(2, true)) {
        say("bare: no start\n");
        return 1;
    }
    /* those that are selected wait for 20 ticks, and speak with a tick or two between */
    const uint32_t ticks = ticks_until(BOTH);
    if (ticks < 20 || ticks > 25) {
        say("bare: no trunk of two links in its time\n");
        return 1;
    }
    if (!line(2, false) || ticks_until(1) != 0) {
        say("bare: a link fell, and the other does not carry alone\n");
        return 1;
    }
    say("bare: two links form a trunk, and one falls\n");
    return 0;
}
