#include "state.h"

#include <linux/ethtool.h>
#include <string.h>

#include "clock.h"

enum { OFTEN = 3 }; /* changes of the partner within the seconds that are watched */

const char *const warning_names[WARNINGS] = {"loop", "rate", "partner-changes", "lost", "send", "apart", "default", "bridged", "churn", "markers"};

/* ---- one port ---- */

static bool churns(const uint8_t *record)
{
    return record[MYRKOSTI_AT_ACTOR_CHURN] == MYRKOSTI_CHURN || record[MYRKOSTI_AT_PARTNER_CHURN] == MYRKOSTI_CHURN;
}

/* A partner that was heard, now or before a restart: in force is something else than the default block. */
static bool has_partner(const uint8_t *record)
{
    return record[MYRKOSTI_AT_RECEIVE] == MYRKOSTI_RECEIVE_CURRENT
        || memcmp(record + MYRKOSTI_AT_PARTNER, record + MYRKOSTI_AT_DEFAULT, MYRKOSTI_BLOCK_STATE) != 0;
}

static bool is_ourselves(const struct driver *d, const uint8_t *partner)
{
    return myrkosti_number(partner + MYRKOSTI_BLOCK_SYSTEM_PRIORITY) == d->system.priority
        && memcmp(partner + MYRKOSTI_BLOCK_SYSTEM, d->system.address, 6) == 0;
}

static uint32_t warnings_of(const struct driver *d, uint32_t i, const struct port_facts *facts, const uint8_t *record)
{
    const struct port *port = &d->ports[i];
    const bool may_churn = facts->is_up && !d->options->listens;
    return (facts->has_partner && is_ourselves(d, facts->partner) ? WARN_LOOP : 0)
        | (lately(port->changes) >= OFTEN ? WARN_CHANGES : 0)
        | (lately(port->lost_lately) > 0 ? WARN_LOST : 0)
        | ((d->kept->waiting & bit_of(i)) != 0 ? WARN_SEND : 0)
        | (facts->cause == MYRKOSTI_CARRIES_BY_DEFAULT ? WARN_DEFAULT : 0)
        | (port->link.master != 0 ? WARN_BRIDGED : 0)
        | (may_churn && churns(record) ? WARN_CHURN : 0)
        | (lately(port->withheld_lately) > 0 ? WARN_MARKERS : 0);
}

static void read_port(struct state *s, const struct driver *d, uint32_t i)
{
    const struct port *port = &d->ports[i];
    struct port_facts *facts = &s->ports[i];
    uint8_t *record = s->records[i];
    myrkosti_port(d->kept->table, d->table.length, i, record, MYRKOSTI_RECORD);
    myrkosti_why(d->kept->table, d->table.length, i, &facts->cause, &facts->holder, &s->ticks_left[i]);
    facts->is_there = port->link.index != 0;
    facts->is_enabled = port->link.is_enabled;
    facts->is_up = port->link.is_up;
    facts->duplex = port->link.duplex;
    facts->speed = port->link.speed;
    facts->is_carrying = myrkosti_is_carrying(facts->cause) && !d->options->listens;
    facts->trunk = record[MYRKOSTI_AT_AGGREGATOR];
    facts->has_partner = has_partner(record);
    if (facts->has_partner)
        memcpy(facts->partner, record + MYRKOSTI_AT_PARTNER, sizeof facts->partner);
    facts->warnings = warnings_of(d, i, facts, record);
    s->carrying += facts->is_carrying;
}

/* ---- what needs more than one ---- */

static uint32_t lowest_of(uint32_t set)
{
    return set == 0 ? 0 : (uint32_t)__builtin_ctz(set) + 1;
}

static void read_trunks(struct state *s, const struct driver *d)
{
    for (uint32_t trunk = 1; trunk <= d->count; trunk++) {
        struct trunk_facts *facts = &s->trunks[trunk];
        uint32_t count, lowest;
        myrkosti_aggregator(d->kept->table, d->table.length, trunk, &facts->holding, &facts->attached, &facts->carrying, &count, &lowest);
        if (d->options->listens)
            facts->carrying = 0;
        if (facts->carrying != 0 && __builtin_popcount(facts->carrying) > __builtin_popcount(s->trunks[s->main_trunk].carrying))
            s->main_trunk = trunk;
    }
}

/* Where a port is silent, down or not there, that is what to mend, and by what it is apart only follows from it. */
static bool is_worth_comparing(const struct port_facts *facts)
{
    return facts->is_there && facts->has_partner && facts->cause != MYRKOSTI_LINK_DOWN && facts->cause != MYRKOSTI_IS_EXPIRED;
}

static void compare_with_main(struct state *s, const struct driver *d, uint32_t i)
{
    const uint32_t lowest = lowest_of(s->trunks[s->main_trunk].carrying);
    struct port_facts *facts = &s->ports[i];
    uint32_t reasons;
    if (lowest == 0 || !is_worth_comparing(facts)
        || myrkosti_apart(d->kept->table, d->table.length, lowest, i, &reasons) != MYRKOSTI_DONE || reasons == 0)
        return;
    facts->apart_from = lowest;
    facts->reasons = reasons;
    facts->warnings |= WARN_APART;
}

static void compare_rates(struct state *s, uint32_t count)
{
    for (uint32_t i = 1; i <= count; i++) {
        struct port_facts *facts = &s->ports[i];
        const uint32_t lowest = lowest_of(s->trunks[facts->trunk].carrying);
        if (facts->is_carrying && lowest != 0 && facts->speed != 0 && s->ports[lowest].speed != 0 && facts->speed != s->ports[lowest].speed)
            facts->warnings |= WARN_RATE;
    }
}

/* ---- all ---- */

void state_read(struct state *s, const struct driver *d, const struct state *before)
{
    const int64_t time = wall();
    memset(s, 0, sizeof *s);
    for (uint32_t i = 1; i <= d->count; i++)
        read_port(s, d, i);
    read_trunks(s, d);
    for (uint32_t i = 1; i <= d->count; i++) {
        compare_with_main(s, d, i);
        const bool port_stays = before->port_since[i] != 0 && before->ports[i].is_carrying == s->ports[i].is_carrying;
        const bool trunk_stays = before->trunk_since[i] != 0 && (before->trunks[i].carrying == 0) == (s->trunks[i].carrying == 0);
        s->port_since[i] = port_stays ? before->port_since[i] : time;
        s->trunk_since[i] = trunk_stays ? before->trunk_since[i] : time;
    }
    compare_rates(s, d->count);
}

bool port_differs(const struct port_facts *a, const struct port_facts *b)
{
    return memcmp(a, b, sizeof *a) != 0;
}

bool state_differs(const struct state *a, const struct state *b, uint32_t count)
{
    return memcmp(a->ports, b->ports, (count + 1) * sizeof *a->ports) != 0
        || memcmp(a->trunks, b->trunks, (count + 1) * sizeof *a->trunks) != 0;
}
