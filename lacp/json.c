/* The state as one line of JSON, as docs/lacp.schema.json has it. */
#include <linux/ethtool.h>
#include <string.h>

#include "clock.h"
#include "show.h"
#include "words.h"

static const char *const because_names[] = {"start", "change", "every", "end"};
static const char *const receive_names[] = {"INITIALIZE", "PORT_DISABLED", "EXPIRED", "LACP_DISABLED", "DEFAULTED", "CURRENT"};
static const char *const mux_names[] = {"DETACHED", "WAITING", "ATTACHED", "COLLECTING", "DISTRIBUTING"};

/* ---- values ---- */

/* Names of interfaces may hold nearly any octet: those that are no plain text are written as U+FFFD. */
static void add_string(struct text *t, const char *string)
{
    text_add(t, "\"");
    for (const unsigned char *c = (const unsigned char *)string; *c != 0; c++) {
        if (*c == '"' || *c == '\\')
            text_add(t, "\\%c", *c);
        else if (*c < 0x20 || *c >= 0x7f)
            text_add(t, "\\ufffd");
        else
            text_add(t, "%c", *c);
    }
    text_add(t, "\"");
}

static void add_address(struct text *t, const uint8_t address[6])
{
    text_add(t, "\"");
    words_address(t, address);
    text_add(t, "\"");
}

static void add_time(struct text *t, int64_t nanoseconds)
{
    text_add(t, "%lld.%03d", (long long)(nanoseconds / SECOND), (int)(nanoseconds % SECOND / MILLISECOND));
}

static void add_set(struct text *t, const char *name, uint32_t set)
{
    const char *comma = "";
    text_add(t, ",\"%s\":[", name);
    for (uint32_t port = 1; set != 0; port++, set >>= 1) {
        if ((set & 1) != 0) {
            text_add(t, "%s%u", comma, port);
            comma = ",";
        }
    }
    text_add(t, "]");
}

static const char *word(bool value)
{
    return value ? "true" : "false";
}

/* ---- a port ---- */

static void add_partner(struct text *t, const struct port_facts *facts, const uint8_t *record)
{
    const uint8_t *partner = record + MYRKOSTI_AT_PARTNER;
    if (!facts->has_partner) {
        text_add(t, ",\"partner\":null");
        return;
    }
    text_add(t, ",\"partner\":{\"system\":");
    add_address(t, partner + MYRKOSTI_BLOCK_SYSTEM);
    text_add(t, ",\"system_priority\":%u,\"key\":%u,\"port_priority\":%u,\"port\":%u,\"state\":%u}",
             myrkosti_number(partner + MYRKOSTI_BLOCK_SYSTEM_PRIORITY), myrkosti_number(partner + MYRKOSTI_BLOCK_KEY),
             myrkosti_number(partner + MYRKOSTI_BLOCK_PORT_PRIORITY), myrkosti_number(partner + MYRKOSTI_BLOCK_PORT), partner[MYRKOSTI_BLOCK_STATE]);
}

static void add_warnings(struct text *t, uint32_t warnings)
{
    const char *comma = "";
    text_add(t, ",\"warnings\":[");
    for (int i = 0; i < WARNINGS; i++) {
        if ((warnings >> i & 1) != 0) {
            text_add(t, "%s\"%s\"", comma, warning_names[i]);
            comma = ",";
        }
    }
    text_add(t, "]");
}

static void add_counters(struct text *t, const struct port *port, const struct myrkosti_counters *c)
{
    text_add(t,
             ",\"counters\":{\"lacpdus_received\":%u,\"markers_received\":%u,\"marker_responses_received\":%u,\"unknown_received\":%u,"
             "\"illegal_received\":%u,\"lacpdus_sent\":%u,\"marker_responses_sent\":%u,\"responses_withheld\":%llu,\"lost_in_queue\":%llu,"
             "\"failed_sends\":%llu}",
             c->lacpdus_received, c->markers_received, c->marker_responses_received, c->unknown_received, c->illegal_received, c->lacpdus_sent,
             c->marker_responses_sent, (unsigned long long)port->withheld, (unsigned long long)port->lost, (unsigned long long)port->failed_sends);
}

static void add_link(struct text *t, const struct port_facts *facts, const struct port *port)
{
    const char *duplex = facts->duplex == DUPLEX_HALF ? "half" : facts->duplex == DUPLEX_FULL ? "full" : "unknown";
    text_add(t, ",\"there\":%s,\"enabled\":%s,\"link\":%s,\"duplex\":\"%s\"", word(facts->is_there), word(facts->is_enabled), word(facts->is_up), duplex);
    if (facts->speed != 0)
        text_add(t, ",\"speed\":%u,\"address\":", facts->speed);
    else
        text_add(t, ",\"speed\":null,\"address\":");
    if (facts->is_there)
        add_address(t, port->link.address);
    else
        text_add(t, "null");
    text_add(t, ",\"key\":%u", port->key);
}

static void add_why(struct text *t, const struct show *show, const struct driver *d, uint32_t i)
{
    const struct port_facts *facts = &show->now.ports[i];
    char octets[512];
    struct text why = text_in(octets, sizeof octets);
    words_why(&why, &show->now, d, i);
    text_add(t, ",\"cause\":%u,\"holder\":%u,\"ticks_left\":%u,\"why\":", facts->cause, facts->holder, show->now.ticks_left[i]);
    add_string(t, octets);
    add_warnings(t, facts->warnings);
    text_add(t, ",\"apart\":{\"from\":%u,\"reasons\":%u}", facts->apart_from, facts->reasons);
}

static void add_port(struct text *t, const struct show *show, const struct driver *d, uint32_t i)
{
    const struct port_facts *facts = &show->now.ports[i];
    const struct port *port = &d->ports[i];
    const uint8_t *record = show->now.records[i];
    text_add(t, "%s{\"port\":%u,\"interface\":", i == 1 ? "" : ",", i);
    add_string(t, port->name);
    add_link(t, facts, port);
    text_add(t, ",\"carries\":%s,\"since\":", word(facts->is_carrying));
    add_time(t, show->now.port_since[i]);
    text_add(t, ",\"trunk\":%u", facts->trunk);
    add_why(t, show, d, i);
    add_partner(t, facts, record);
    if (port->heard != 0)
        text_add(t, ",\"heard\":%.3f", (double)(now() - port->heard) / (double)SECOND);
    else
        text_add(t, ",\"heard\":null");
    text_add(t, ",\"receive\":\"%s\",\"mux\":\"%s\",\"changes\":%u,\"waiting\":%s", receive_names[record[MYRKOSTI_AT_RECEIVE]],
             mux_names[record[MYRKOSTI_AT_MUX]], lately(port->changes), word((d->kept->waiting & bit_of(i)) != 0));
    add_counters(t, port, &d->kept->counters[i]);
    text_add(t, "}");
}

/* ---- a trunk, and all ---- */

static void add_trunk(struct text *t, const struct show *show, uint32_t i)
{
    const struct trunk_facts *facts = &show->now.trunks[i];
    const struct port_facts *first = &show->now.ports[i]; /* a trunk has the number of its lowest port */
    text_add(t, "{\"trunk\":%u", i);
    add_set(t, "holding", facts->holding);
    add_set(t, "attached", facts->attached);
    add_set(t, "carrying", facts->carrying);
    text_add(t, ",\"since\":");
    if (facts->carrying != 0)
        add_time(t, show->now.trunk_since[i]);
    else
        text_add(t, "null");
    text_add(t, ",\"partner\":");
    if (first->has_partner) {
        text_add(t, "{\"system\":");
        add_address(t, first->partner + MYRKOSTI_BLOCK_SYSTEM);
        text_add(t, ",\"key\":%u}", myrkosti_number(first->partner + MYRKOSTI_BLOCK_KEY));
    } else {
        text_add(t, "null");
    }
    text_add(t, "}");
}

static void add_us(struct text *t, const struct driver *d)
{
    const struct options *o = d->options;
    text_add(t, ",\"us\":{\"system\":");
    add_address(t, d->system.address);
    text_add(t, ",\"priority\":%u,\"active\":%s,\"short\":%s,\"listen\":%s,\"tap\":", d->system.priority, word(o->is_active), word(o->is_short), word(o->listens));
    if (o->tap != NULL)
        add_string(t, o->tap);
    else
        text_add(t, "null");
    text_add(t, ",\"tap_sent\":%llu,\"tap_received\":%llu,\"tap_lost\":%llu}", (unsigned long long)d->tap.sent, (unsigned long long)d->tap.received,
             (unsigned long long)d->tap.lost);
}

void show_json(struct show *show, const struct driver *d, enum because because)
{
    static char octets[PORTS * 2048];
    struct text t = text_in(octets, sizeof octets);
    const char *comma = "";
    text_add(&t, "{\"format\":1,\"time\":");
    add_time(&t, wall());
    text_add(&t, ",\"because\":\"%s\",\"name\":", because_names[because]);
    add_string(&t, show->name);
    text_add(&t, ",\"ticks\":%llu,\"missed\":%llu,\"latest_ms\":%.3f,\"lines_lost\":%llu", (unsigned long long)d->ticks, (unsigned long long)d->missed,
             (double)d->latest / (double)MILLISECOND, (unsigned long long)show->out->lost);
    add_us(&t, d);
    text_add(&t, ",\"carrying\":%u,\"ports\":[", show->now.carrying);
    for (uint32_t i = 1; i <= d->count; i++)
        add_port(&t, show, d, i);
    text_add(&t, "],\"trunks\":[");
    for (uint32_t i = 1; i <= d->count; i++) {
        if (show->now.trunks[i].holding == 0)
            continue;
        text_add(&t, "%s", comma);
        add_trunk(&t, show, i);
        comma = ",";
    }
    text_add(&t, "]}\n");
    out_write(show->out, t.octets, t.length);
}
