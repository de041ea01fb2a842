#include "scene.h"

#include <string.h>

static const uint8_t OURS[6] = {0, 0, 0, 0, 0, 9};
static const uint8_t ADDRESS[6] = {0x02, 0x00, 0x5e, 0x10, 0x20, 0x30};
/* an unheard partner: short timeout, not aggregatable */
static const uint8_t NOBODY[MYRKOSTI_BLOCK] = {0, 0, 0, 0, 0, 0, 0, 0, 0, 0, 0, 0, 0, 0, MYRKOSTI_TIMEOUT};

/* the state of a port that carries traffic; ticks after which every port does; the last octet of a neighbour's address; ticks that a Marker is awaited */
enum { CARRYING = 0x3f, TICKS = 45, NEIGHBOUR = 50, WAIT = 20 };

/* for calls that make tables and are not measured */
static struct myrkosti_counters unread;

/* the octets of a record that lie before all monitors */
static uint8_t *record_of(uint8_t *table, uint32_t port)
{
    return table + MYRKOSTI_HEADER + MYRKOSTI_AT_ACTOR_CHURN * (port - 1);
}

/* ---- frames ---- */

/* an information block: the system whose address ends so, with priority 1 */
static void put_block(uint8_t *at, uint8_t system, uint8_t key, uint8_t port)
{
    const uint8_t block[MYRKOSTI_BLOCK] = {0, 1, 0, 0, 0, 0, 0, system, 0, key, 0, 1, 0, port, CARRYING};
    memcpy(at, block, sizeof block);
}

/* an LACPDU of the same port of that system, which carries traffic and says that we do */
static void write_lacpdu(uint8_t frame[MYRKOSTI_FRAME], uint8_t port, uint8_t system, uint8_t key)
{
    static const uint8_t header[18] = {0x01, 0x80, 0xc2, 0, 0, 2, 2, 0, 0, 0, 0, 5, 0x88, 0x09, 1, 1, 1, 20};
    memset(frame, 0, MYRKOSTI_FRAME);
    memcpy(frame, header, sizeof header);
    put_block(frame + 18, system, key, port);
    frame[36] = 2;
    frame[37] = 20;
    put_block(frame + 38, OURS[5], 1, port);
    frame[56] = 3;
    frame[57] = 16;
}

/* ---- tables ---- */

static uint32_t start(const struct side *side, uint8_t *table, const struct scene *scene)
{
    return side->start(table, scene->size, scene->ports, 1, OURS, 0, ADDRESS, 1, 1, true, true, true, NOBODY);
}

static void bring_up(uint8_t *table, const struct scene *scene)
{
    start(&SIDES[0], table, scene);
    for (uint32_t port = 1; port <= scene->ports; port++)
        SIDES[0].line(table, scene->size, port, true, true);
}

/* every port hears its neighbour: one for all, or one each */
static void hear_all(uint8_t *table, const struct scene *scene, bool one_each)
{
    uint8_t frame[MYRKOSTI_FRAME], out[MYRKOSTI_FRAME];
    uint32_t sent;
    for (uint32_t port = 1; port <= scene->ports; port++) {
        write_lacpdu(frame, (uint8_t)port, (uint8_t)(NEIGHBOUR + (one_each ? port : 0)), 1);
        SIDES[0].receive(table, scene->size, port, frame, sizeof frame, out, sizeof out, &sent, &unread);
    }
}

/* a tick, after which all that is due is sent */
static void tick_and_send(uint8_t *table, const struct scene *scene)
{
    uint8_t out[MYRKOSTI_FRAME];
    SIDES[0].tick(table, scene->size);
    for (uint32_t port = 1; port <= scene->ports; port++)
        SIDES[0].fetch(table, scene->size, port, out, sizeof out, &unread);
}

/* whether every port has this mux state and the aggregator that is given for it; if they distribute, NTT is clear but for the last port's */
static bool all_are(uint8_t *table, const struct scene *scene, uint8_t mux, uint8_t (*aggregator)(uint32_t port), uint8_t last_ntt)
{
    for (uint32_t port = 1; port <= scene->ports; port++) {
        const uint8_t *record = record_of(table, port);
        uint8_t ntt = port == scene->ports ? last_ntt : 0;
        if (record[MYRKOSTI_AT_MUX] != mux || record[MYRKOSTI_AT_AGGREGATOR] != aggregator(port))
            return false;
        if (mux == 4 && record[MYRKOSTI_AT_NTT] != ntt)
            return false;
    }
    return true;
}

static uint8_t first(uint32_t port)
{
    (void)port;
    return 1;
}

static uint8_t first_or_second(uint32_t port)
{
    return port == 1 ? 1 : 2;
}

static uint8_t own(uint32_t port)
{
    return (uint8_t)port;
}

static void run_in(uint8_t *table, const struct scene *scene, bool one_each)
{
    bring_up(table, scene);
    for (int tick = 0; tick < TICKS; tick++) {
        hear_all(table, scene, one_each);
        tick_and_send(table, scene);
    }
}

static bool make_trunk(struct scene *scene)
{
    run_in(scene->trunk, scene, false);
    return all_are(scene->trunk, scene, 4, first, 0);
}

static bool make_due(struct scene *scene)
{
    memcpy(scene->due, scene->trunk, scene->size);
    record_of(scene->due, scene->ports)[MYRKOSTI_AT_NTT] = 1;
    memset(record_of(scene->due, scene->ports) + MYRKOSTI_AT_AGES, 255, 3);
    return all_are(scene->due, scene, 4, first, 1);
}

/* the Response is the Marker with another type */
static bool make_awaiting(struct scene *scene)
{
    memcpy(scene->awaiting, scene->trunk, scene->size);
    if (SIDES[0].ask(scene->awaiting, scene->size, 1, WAIT, scene->response, MYRKOSTI_FRAME) != MYRKOSTI_DONE)
        return false;
    scene->response[16] = 2;
    return all_are(scene->awaiting, scene, 4, first, 0);
}

static bool make_waiting(struct scene *scene)
{
    uint8_t out[MYRKOSTI_FRAME];
    uint32_t sent;
    memcpy(scene->waiting, scene->trunk, scene->size);
    SIDES[0].receive(scene->waiting, scene->size, 1, scene->moving, MYRKOSTI_FRAME, out, sizeof out, &sent, &unread);
    return all_are(scene->waiting, scene, 1, first_or_second, 0);
}

static bool make_apart(struct scene *scene)
{
    run_in(scene->apart, scene, true);
    return all_are(scene->apart, scene, 4, own, 0);
}

bool make_scene(struct scene *scene, uint32_t ports)
{
    memset(scene, 0, sizeof *scene);
    scene->ports = ports;
    scene->size = MYRKOSTI_TABLE(ports);
    write_lacpdu(scene->repeated, 1, NEIGHBOUR, 1);
    write_lacpdu(scene->moving, 1, NEIGHBOUR, 2);
    return make_trunk(scene) && make_due(scene) && make_awaiting(scene) && make_waiting(scene) && make_apart(scene);
}

void restore(const struct call *call, const struct scene *scene, struct area *area)
{
    memset(area, 0, sizeof *area);
    memcpy(area->table, call->before(scene), scene->size);
}

/* ---- calls ---- */

static const uint8_t *trunk(const struct scene *scene)
{
    return scene->trunk;
}

static const uint8_t *due(const struct scene *scene)
{
    return scene->due;
}

static const uint8_t *awaiting(const struct scene *scene)
{
    return scene->awaiting;
}

static const uint8_t *waiting(const struct scene *scene)
{
    return scene->waiting;
}

static const uint8_t *apart(const struct scene *scene)
{
    return scene->apart;
}

static uint32_t repeat(const struct side *side, const struct scene *scene, struct area *area)
{
    return side->receive(area->table, scene->size, 1, scene->repeated, MYRKOSTI_FRAME, area->out, MYRKOSTI_FRAME, &area->sent, &area->counters);
}

static uint32_t move(const struct side *side, const struct scene *scene, struct area *area)
{
    return side->receive(area->table, scene->size, 1, scene->moving, MYRKOSTI_FRAME, area->out, MYRKOSTI_FRAME, &area->sent, &area->counters);
}

static uint32_t answer(const struct side *side, const struct scene *scene, struct area *area)
{
    return side->receive(area->table, scene->size, 1, scene->response, MYRKOSTI_FRAME, area->out, MYRKOSTI_FRAME, &area->sent, &area->counters);
}

static uint32_t ask(const struct side *side, const struct scene *scene, struct area *area)
{
    return side->ask(area->table, scene->size, scene->ports, WAIT, area->out, MYRKOSTI_FRAME);
}

static uint32_t tick(const struct side *side, const struct scene *scene, struct area *area)
{
    return side->tick(area->table, scene->size);
}

static uint32_t fetch(const struct side *side, const struct scene *scene, struct area *area)
{
    return side->fetch(area->table, scene->size, scene->ports, area->out, MYRKOSTI_FRAME, &area->counters);
}

static uint32_t report_port(const struct side *side, const struct scene *scene, struct area *area)
{
    return side->port(area->table, scene->size, scene->ports, area->record, sizeof area->record);
}

static uint32_t report_aggregator(const struct side *side, const struct scene *scene, struct area *area)
{
    uint32_t *sets = area->sets;
    return side->aggregator(area->table, scene->size, 1, &sets[0], &sets[1], &sets[2], &sets[3], &sets[4]);
}

static uint32_t report_due(const struct side *side, const struct scene *scene, struct area *area)
{
    return side->due(area->table, scene->size, &area->ports);
}

static uint32_t report_why(const struct side *side, const struct scene *scene, struct area *area)
{
    uint32_t *sets = area->sets;
    return side->why(area->table, scene->size, scene->ports, &sets[0], &sets[1], &sets[2]);
}

static uint32_t report_apart(const struct side *side, const struct scene *scene, struct area *area)
{
    return side->apart(area->table, scene->size, 1, scene->ports, &area->sets[0]);
}

static uint32_t fall(const struct side *side, const struct scene *scene, struct area *area)
{
    return side->line(area->table, scene->size, 1, false, true);
}

static uint32_t halve(const struct side *side, const struct scene *scene, struct area *area)
{
    return side->line(area->table, scene->size, 1, true, false);
}

static uint32_t set_key(const struct side *side, const struct scene *scene, struct area *area)
{
    return side->settings(area->table, scene->size, 1, ADDRESS, 2, 1, true, true, true, NOBODY);
}

static uint32_t begin(const struct side *side, const struct scene *scene, struct area *area)
{
    return start(side, area->table, scene);
}

const struct call CALLS[] = {
    {"receive, repeated", trunk, repeat, MYRKOSTI_DONE},
    {"receive, moves all", trunk, move, MYRKOSTI_DONE},
    {"receive, Response", awaiting, answer, MYRKOSTI_DONE},
    {"tick", trunk, tick, MYRKOSTI_DONE},
    {"tick, all waiting", waiting, tick, MYRKOSTI_DONE},
    {"tick, all apart", apart, tick, MYRKOSTI_DONE},
    {"fetch", due, fetch, MYRKOSTI_DONE},
    {"fetch, nothing due", trunk, fetch, MYRKOSTI_NOTHING_TO_SEND},
    {"ask", trunk, ask, MYRKOSTI_DONE},
    {"due", trunk, report_due, MYRKOSTI_DONE},
    {"port report", trunk, report_port, MYRKOSTI_DONE},
    {"aggregator report", trunk, report_aggregator, MYRKOSTI_DONE},
    {"why", waiting, report_why, MYRKOSTI_DONE},
    {"apart", apart, report_apart, MYRKOSTI_DONE},
    {"line, link falls", trunk, fall, MYRKOSTI_DONE},
    {"line, duplex halves", trunk, halve, MYRKOSTI_DONE},
    {"settings, new key", trunk, set_key, MYRKOSTI_DONE},
    {"start", trunk, begin, MYRKOSTI_DONE},
};
const size_t CALL_COUNT = sizeof CALLS / sizeof CALLS[0];
