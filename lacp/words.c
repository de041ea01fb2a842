#include "words.h"

#include <linux/ethtool.h>
#include <string.h>
#include <time.h>

#include "clock.h"

/* ---- small ones ---- */

void words_address(struct text *text, const uint8_t a[6])
{
    text_add(text, "%02x:%02x:%02x:%02x:%02x:%02x", a[0], a[1], a[2], a[3], a[4], a[5]);
}

void words_time(struct text *text, int64_t time)
{
    const time_t seconds = (time_t)(time / SECOND);
    struct tm is;
    localtime_r(&seconds, &is);
    text_add(text, "%02d:%02d:%02d", is.tm_hour, is.tm_min, is.tm_sec);
}

void words_set(struct text *text, uint32_t set)
{
    for (uint32_t port = 1; set != 0; port++, set >>= 1) {
        const int left = __builtin_popcount(set);
        if ((set & 1) != 0)
            text_add(text, "%u%s", port, left == 1 ? "" : left == 2 ? " and " : ", ");
    }
}

void words_link(struct text *text, const struct port_facts *facts)
{
    const char *duplex = facts->duplex == DUPLEX_HALF ? " half" : facts->duplex == DUPLEX_FULL ? " full" : "";
    if (!facts->is_there)
        text_add(text, "gone");
    else if (!facts->is_enabled)
        text_add(text, "off");
    else if (!facts->is_up)
        text_add(text, "no link");
    else if (facts->speed == 0)
        text_add(text, "up%s", duplex);
    else if (facts->speed % 1000 == 0)
        text_add(text, "%uG%s", facts->speed / 1000, duplex);
    else
        text_add(text, "%uM%s", facts->speed, duplex);
}

static double seconds_of(int64_t nanoseconds)
{
    return (double)nanoseconds / (double)SECOND;
}

static double seconds_of_ticks(uint32_t ticks)
{
    return ticks / 10.0;
}

/* ---- why not ---- */

static void say_down(struct text *text, const struct driver *d, uint32_t i, const struct port_facts *facts)
{
    const struct port *port = &d->ports[i];
    if (!facts->is_there)
        text_add(text, "there is no interface of this name");
    else if (!facts->is_enabled)
        text_add(text, "the interface is off here: ip link set %s up", port->name);
    else if (port->lacp < 0)
        text_add(text, "cannot be opened: %s", strerror(port->open_trouble));
    else
        text_add(text, "no carrier: the cable, or the port at the other end");
}

/* Nobody was heard, or nobody any more. A record has what is left of the wait. */
static void say_silent(struct text *text, const struct driver *d, uint32_t i, const struct state *s)
{
    const struct port *port = &d->ports[i];
    const bool is_given_up = s->ports[i].cause == MYRKOSTI_IS_DEFAULTED;
    const char *also = d->options->is_active || d->options->listens ? "" : ", passive as we are";
    if (port->heard == 0 && !s->ports[i].has_partner && !is_given_up)
        text_add(text, "heard nobody yet");
    else if (port->heard == 0)
        text_add(text, "never heard anyone: is LACP off there%s, or a bridge between?", also);
    else if (is_given_up)
        text_add(text, "silent for %.1f s, given up", seconds_of(now() - port->heard));
    else
        text_add(text, "silent for %.1f s, given up in %.1f s", seconds_of(now() - port->heard),
                 seconds_of_ticks(myrkosti_number(s->records[i] + MYRKOSTI_AT_CURRENT_WHILE)));
}

/* What the last LACPDU says tells which of two troubles it is. */
static void say_out_of_sync(struct text *text, const struct driver *d, uint32_t i, const uint8_t *record)
{
    const struct port *port = &d->ports[i];
    const uint8_t *of_us = port->lacpdu + LACPDU_PARTNER;
    const bool names_us = memcmp(of_us + MYRKOSTI_BLOCK_SYSTEM, d->system.address, 6) == 0 && myrkosti_number(of_us + MYRKOSTI_BLOCK_PORT) == i
        && myrkosti_number(of_us + MYRKOSTI_BLOCK_KEY) == myrkosti_number(record + MYRKOSTI_AT_KEY);
    const bool names_nobody = myrkosti_number(of_us + MYRKOSTI_BLOCK_PORT) == 0;
    if (port->heard != 0 && names_nobody)
        text_add(text, "it names no partner: does it not hear us?");
    else if (port->heard != 0 && !names_us)
        text_add(text, "it names another partner than this port: does it not hear us?");
    else if ((port->lacpdu[LACPDU_ACTOR + MYRKOSTI_BLOCK_STATE] & MYRKOSTI_SYNCHRONIZATION) == 0)
        text_add(text, "it does not say that it is in sync");
    else
        text_add(text, "not in sync");
}

static void say_cause(struct text *text, const struct state *s, const struct driver *d, uint32_t i)
{
    const struct port_facts *facts = &s->ports[i];
    switch (facts->cause) {
    case MYRKOSTI_CARRIES:
    case MYRKOSTI_CARRIES_BY_DEFAULT:
        break;
    case MYRKOSTI_LINK_DOWN:
        say_down(text, d, i, facts);
        break;
    case MYRKOSTI_HALF_DUPLEX:
        text_add(text, "half duplex, so LACP is off");
        break;
    case MYRKOSTI_IS_DEFAULTED:
    case MYRKOSTI_IS_EXPIRED:
        say_silent(text, d, i, s);
        break;
    case MYRKOSTI_WAITS:
        text_add(text, "waits, %.1f s more", seconds_of_ticks(s->ticks_left[i]));
        break;
    case MYRKOSTI_HELD_BACK:
        text_add(text, "waits for port %u (%s), %.1f s more", facts->holder, d->ports[facts->holder].name, seconds_of_ticks(s->ticks_left[i]));
        break;
    case MYRKOSTI_OUT_OF_SYNC:
        say_out_of_sync(text, d, i, s->records[i]);
        break;
    case MYRKOSTI_PARTNER_NOT_COLLECTING:
        text_add(text, "it is in sync, but does not collect");
        break;
    default:
        text_add(text, "for cause %u, which has no name here", facts->cause);
    }
}

/* ---- warnings ---- */

/* Of what differs from the trunk with the most ports, the first that a person can act on. */
static void say_apart(struct text *text, const struct state *s, const struct port_facts *facts)
{
    const uint32_t reasons = facts->reasons;
    text_add(text, "apart from port%s ", (s->trunks[s->main_trunk].carrying & (s->trunks[s->main_trunk].carrying - 1)) == 0 ? "" : "s");
    words_set(text, s->trunks[s->main_trunk].carrying);
    if ((reasons & (MYRKOSTI_FIRST_INDIVIDUAL | MYRKOSTI_SECOND_INDIVIDUAL)) != 0)
        text_add(text, ": alone by our setting");
    else if ((reasons & (MYRKOSTI_FIRST_PARTNER_INDIVIDUAL | MYRKOSTI_SECOND_PARTNER_INDIVIDUAL)) != 0)
        text_add(text, ": alone by the other end's setting");
    else if ((reasons & (MYRKOSTI_FIRST_LOOPED | MYRKOSTI_SECOND_LOOPED)) != 0)
        text_add(text, ": one of them leads back here");
    else if ((reasons & MYRKOSTI_KEYS_DIFFER) != 0)
        text_add(text, ": another key here");
    else if ((reasons & MYRKOSTI_PARTNER_SYSTEMS_DIFFER) != 0)
        text_add(text, ": another switch, a cable in the wrong one?");
    else if ((reasons & MYRKOSTI_PARTNER_KEYS_DIFFER) != 0)
        text_add(text, ": another key at the other end");
    else
        text_add(text, ": another system priority at the other end");
}

static void say_warning(struct text *text, const struct state *s, const struct driver *d, uint32_t i, uint32_t warning)
{
    const struct port *port = &d->ports[i];
    switch (warning) {
    case WARN_LOOP: text_add(text, "the other end is this very system: a loop, or two of one address"); break;
    case WARN_RATE: text_add(text, "another speed than others of its trunk"); break;
    case WARN_CHANGES: text_add(text, "the partner changes: %u times in %d s", lately(port->changes), SECONDS_WATCHED); break;
    case WARN_LOST: text_add(text, "%u frames lost in the queue in %d s", lately(port->lost_lately), SECONDS_WATCHED); break;
    case WARN_SEND: text_add(text, "a frame could not be sent%s%s", port->send_trouble == 0 ? "" : ": ", port->send_trouble == 0 ? "" : strerror(port->send_trouble)); break;
    case WARN_APART: say_apart(text, s, &s->ports[i]); break;
    case WARN_DEFAULT: text_add(text, "carries on its settings alone"); break;
    case WARN_BRIDGED: text_add(text, "is in a bridge or bond, which forwards as it likes"); break;
    case WARN_CHURN: text_add(text, "has not settled for a minute"); break;
    default: text_add(text, "%u Markers in %d s not answered, of more than five a second", lately(port->withheld_lately), SECONDS_WATCHED);
    }
}

/* ---- who is there, for who only listens ---- */

static void say_what_it_says(struct text *text, const struct port *port)
{
    static const char *const set[] = {"active", "fast", "aggregatable", "in sync", "collecting", "distributing", "defaulted", "expired"};
    static const char *const clear[] = {"passive", "slow", "alone", NULL, NULL, NULL, NULL, NULL};
    const uint8_t state = port->lacpdu[LACPDU_ACTOR + MYRKOSTI_BLOCK_STATE];
    const uint8_t *its_partner = port->lacpdu + LACPDU_PARTNER;
    const char *comma = "it says ";
    for (int bit = 0; bit < 8; bit++) {
        const char *word = (state >> bit & 1) != 0 ? set[bit] : clear[bit];
        if (word != NULL) {
            text_add(text, "%s%s", comma, word);
            comma = ", ";
        }
    }
    if (myrkosti_number(its_partner + MYRKOSTI_BLOCK_PORT) == 0) {
        text_add(text, "; it hears nobody");
        return;
    }
    text_add(text, "; its partner is ");
    words_address(text, its_partner + MYRKOSTI_BLOCK_SYSTEM);
    text_add(text, " port %u", myrkosti_number(its_partner + MYRKOSTI_BLOCK_PORT));
}

void words_why(struct text *text, const struct state *s, const struct driver *d, uint32_t i)
{
    const struct port_facts *facts = &s->ports[i];
    const size_t begin = text->length;
    if (d->options->listens && facts->has_partner && d->ports[i].heard != 0)
        say_what_it_says(text, &d->ports[i]);
    else
        say_cause(text, s, d, i);
    for (uint32_t w = 0; w < WARNINGS; w++) {
        const bool is_said = (UINT32_C(1) << w) == WARN_APART && (facts->warnings & WARN_LOOP) != 0; /* a loop says why it is apart */
        if ((facts->warnings >> w & 1) == 0 || is_said)
            continue;
        if (text->length > begin)
            text_add(text, "; ");
        say_warning(text, s, d, i, UINT32_C(1) << w);
    }
}
