/* Changes as lines: one for each port, and each trunk, of which there is something new. */
#include <string.h>

#include "clock.h"
#include "show.h"
#include "words.h"

static void begin(struct text *t, const struct show *show)
{
    const int64_t time = wall();
    if (show->name[0] != 0)
        text_add(t, "%s: ", show->name);
    words_time(t, time);
    text_add(t, ".%03d  ", (int)(time % SECOND / MILLISECOND));
}

static void end(struct text *t, struct show *show)
{
    text_add(t, "\n");
    out_write(show->out, t->octets, t->length);
}

static void add_other_end(struct text *t, const struct port_facts *facts)
{
    words_address(t, facts->partner + MYRKOSTI_BLOCK_SYSTEM);
    text_add(t, " key %u", myrkosti_number(facts->partner + MYRKOSTI_BLOCK_KEY));
}

static void tell_port(struct show *show, const struct driver *d, uint32_t i)
{
    const struct port_facts *facts = &show->now.ports[i];
    char octets[1024], because[512];
    struct text t = text_in(octets, sizeof octets), why = text_in(because, sizeof because);
    words_why(&why, &show->now, d, i);
    begin(&t, show);
    text_add(&t, "%s (port %u) ", d->ports[i].name, i);
    const bool hears = d->options->listens && facts->has_partner;
    if (facts->is_carrying)
        text_add(&t, "carries in trunk %u, to ", facts->trunk);
    else
        text_add(&t, hears ? "hears " : d->options->listens ? "hears nobody" : "does not carry");
    if (facts->has_partner && (facts->is_carrying || hears)) {
        add_other_end(&t, facts);
        text_add(&t, " port %u", myrkosti_number(facts->partner + MYRKOSTI_BLOCK_PORT));
    }
    if (why.length > 0)
        text_add(&t, "%s%s", facts->is_carrying ? "; but " : ": ", because);
    end(&t, show);
}

static void tell_trunk(struct show *show, const struct driver *d, uint32_t i)
{
    const struct trunk_facts *facts = &show->now.trunks[i];
    char octets[1024];
    struct text t = text_in(octets, sizeof octets);
    begin(&t, show);
    if (facts->holding == 0)
        text_add(&t, "trunk %u: its ports have left it", i);
    else
        text_add(&t, "trunk %u: %d of %d carry", i, __builtin_popcount(facts->carrying), __builtin_popcount(facts->holding));
    if (facts->carrying != 0) {
        text_add(&t, ", port%s ", __builtin_popcount(facts->carrying) == 1 ? "" : "s");
        words_set(&t, facts->carrying);
        text_add(&t, ", to ");
        add_other_end(&t, &show->now.ports[i]);
    }
    if (d->options->tap != NULL && d->tap.trunk == i)
        text_add(&t, ", is %s", d->options->tap);
    end(&t, show);
}

static void tell_start(struct show *show, const struct driver *d)
{
    char octets[256];
    struct text t = text_in(octets, sizeof octets);
    begin(&t, show);
    text_add(&t, "we are ");
    words_address(&t, d->system.address);
    text_add(&t, "%s%s%s", d->options->is_active ? "" : ", passive", d->options->is_short ? "" : ", slow", d->options->listens ? ", and listen only" : "");
    text_add(&t, "%s", d->left == LEFT_TABLE ? "; going on with the table that was left" : "");
    end(&t, show);
}

static void tell_end(struct show *show, const struct driver *d)
{
    char octets[256];
    struct text t = text_in(octets, sizeof octets);
    begin(&t, show);
    text_add(&t, "%u of %u carry at the end; %llu ticks, %llu missed, the latest %.1f ms late", show->now.carrying, d->count, (unsigned long long)d->ticks,
             (unsigned long long)d->missed, (double)d->latest / (double)MILLISECOND);
    end(&t, show);
}

void show_lines(struct show *show, const struct driver *d, enum because because)
{
    if (because == BECAUSE_START)
        tell_start(show, d);
    for (uint32_t i = 1; i <= d->count; i++)
        if (because == BECAUSE_START || port_differs(&show->now.ports[i], &show->told.ports[i]))
            tell_port(show, d, i);
    for (uint32_t i = 1; i <= d->count; i++)
        if (show->now.trunks[i].carrying != show->told.trunks[i].carrying)
            tell_trunk(show, d, i);
    if (because == BECAUSE_END)
        tell_end(show, d);
}
