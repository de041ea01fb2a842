/* The live view: a line for us, for each trunk and for each port, drawn over the last one. */
#include <stdlib.h>
#include <string.h>
#include <sys/ioctl.h>
#include <unistd.h>

#include "clock.h"
#include "show.h"
#include "words.h"

enum { PLAIN = 0, RED = 31, GREEN = 32, YELLOW = 33, DIM = 2 };

/* Where the next line goes. */
struct screen {
    struct text text;
    unsigned row, end; /* from 0 */
    size_t columns;
    bool has_colours;
};

/* ---- lines ---- */

static void draw(struct screen *screen, int colour, const char *line)
{
    if (screen->row >= screen->end)
        return;
    text_add(&screen->text, "\033[%u;1H", screen->row + 1);
    if (screen->has_colours && colour != PLAIN)
        text_add(&screen->text, "\033[%dm", colour);
    text_add(&screen->text, "%.*s\033[0m\033[K", (int)screen->columns, line);
    screen->row++;
}

static bool has_one_key(const struct driver *d)
{
    for (uint32_t i = 2; i <= d->count; i++)
        if (d->ports[i].key != d->ports[1].key)
            return false;
    return true;
}

static void draw_us(struct screen *screen, const struct show *show, const struct driver *d)
{
    const struct options *o = d->options;
    char octets[256];
    struct text t = text_in(octets, sizeof octets);
    text_add(&t, "%s%sus ", show->name, show->name[0] != 0 ? ": " : "");
    words_address(&t, d->system.address);
    if (has_one_key(d))
        text_add(&t, " key %u", d->ports[1].key);
    text_add(&t, " %s %s%s  ", o->is_short ? "fast" : "slow", o->is_active ? "active" : "passive", o->listens ? ", listens only" : "");
    words_time(&t, wall());
    text_add(&t, "  ticks %llu, %llu missed, latest %.1f ms", (unsigned long long)d->ticks, (unsigned long long)d->missed, (double)d->latest / (double)MILLISECOND);
    draw(screen, PLAIN, octets);
}

static void draw_trunk(struct screen *screen, const struct show *show, const struct driver *d, uint32_t i)
{
    const struct trunk_facts *facts = &show->now.trunks[i];
    const int carry = __builtin_popcount(facts->carrying), hold = __builtin_popcount(facts->holding);
    const struct port_facts *first = &show->now.ports[i];
    char octets[256];
    struct text t = text_in(octets, sizeof octets);
    if (hold == 0 || !first->has_partner || (carry == 0 && hold == 1))
        return; /* it is none, nobody is there, or it is all in the port's own line */
    text_add(&t, "trunk %u: %d of %d carry, to ", i, carry, hold);
    words_address(&t, first->partner + MYRKOSTI_BLOCK_SYSTEM);
    text_add(&t, " key %u", myrkosti_number(first->partner + MYRKOSTI_BLOCK_KEY));
    text_add(&t, carry > 0 ? ", since " : ", not since ");
    words_time(&t, show->now.trunk_since[i]);
    if (d->options->tap != NULL && d->tap.trunk == i)
        text_add(&t, "; is %s: %llu out, %llu in", d->options->tap, (unsigned long long)d->tap.sent, (unsigned long long)d->tap.received);
    draw(screen, carry == hold ? GREEN : YELLOW, octets);
}

static int width_of_names(const struct driver *d)
{
    size_t width = 4;
    for (uint32_t i = 1; i <= d->count; i++)
        width = strlen(d->ports[i].name) > width ? strlen(d->ports[i].name) : width;
    return (int)width;
}

static void add_other_end(struct text *t, const struct port_facts *facts, const struct port *port)
{
    char octets[32] = "-", key[8] = "-", number[8] = "-", heard[16] = "-";
    if (facts->has_partner) {
        struct text address = text_in(octets, sizeof octets), k = text_in(key, sizeof key), n = text_in(number, sizeof number);
        words_address(&address, facts->partner + MYRKOSTI_BLOCK_SYSTEM);
        text_add(&k, "%u", myrkosti_number(facts->partner + MYRKOSTI_BLOCK_KEY));
        text_add(&n, "%u", myrkosti_number(facts->partner + MYRKOSTI_BLOCK_PORT));
    }
    if (port->heard != 0) {
        struct text h = text_in(heard, sizeof heard);
        text_add(&h, "%.1f s", (double)(now() - port->heard) / (double)SECOND);
    }
    text_add(t, "%-17s %5s %5s %6s", octets, key, number, heard);
}

/* A sentence on lines of its own, cut between words. */
static void draw_below(struct screen *screen, int colour, const char *sentence)
{
    enum { INDENT = 6, LEAST = 10 };
    const size_t room = screen->columns < INDENT + LEAST ? LEAST : screen->columns - INDENT;
    while (*sentence != 0) {
        char octets[1024];
        struct text t = text_in(octets, sizeof octets);
        size_t length = strlen(sentence);
        if (length > room)
            for (length = room; length > 0 && sentence[length] != ' '; length--)
                ;
        if (length == 0)
            length = room; /* one word, and longer than a line */
        text_add(&t, "%*s%.*s", INDENT, "", (int)length, sentence);
        draw(screen, colour, octets);
        sentence += length;
        sentence += strspn(sentence, " ");
    }
}

/* The sentence stands behind the port if there is room, and otherwise below it. */
static void draw_port(struct screen *screen, const struct show *show, const struct driver *d, uint32_t i)
{
    const struct port_facts *facts = &show->now.ports[i];
    char octets[1024], link[32], since[16], because[512];
    struct text t = text_in(octets, sizeof octets), l = text_in(link, sizeof link), s = text_in(since, sizeof since), why = text_in(because, sizeof because);
    const int colour = !facts->is_carrying ? RED : facts->warnings != 0 ? YELLOW : GREEN;
    words_link(&l, facts);
    words_time(&s, show->now.port_since[i]);
    words_why(&why, &show->now, d, i);
    text_add(&t, "%4u  %-*s %-9s %-7s %s  ", i, width_of_names(d), d->ports[i].name, link, facts->is_carrying ? "yes" : "no", since);
    add_other_end(&t, facts, &d->ports[i]);
    const bool has_room = t.length + 2 + why.length <= screen->columns;
    if (why.length > 0 && has_room)
        text_add(&t, "  %s", because);
    draw(screen, colour, octets);
    if (!has_room)
        draw_below(screen, colour, because);
}

/* ---- the whole ---- */

static void draw_head(struct screen *screen, const struct driver *d)
{
    char octets[128];
    struct text t = text_in(octets, sizeof octets);
    text_add(&t, "port  %-*s %-9s %-7s %-8s  %-17s %5s %5s %6s  %s", width_of_names(d), "if", "link", "carries", "since", "other end", "key", "port", "heard", "why not");
    draw(screen, DIM, octets);
}

/* What was refused, lost or could not be sent, if anything was. */
static void draw_refused(struct screen *screen, const struct driver *d)
{
    for (uint32_t i = 1; i <= d->count; i++) {
        const struct myrkosti_counters *c = &d->kept->counters[i];
        const struct port *p = &d->ports[i];
        char octets[256];
        struct text t = text_in(octets, sizeof octets);
        if (c->illegal_received + c->unknown_received + p->lost + p->failed_sends + p->withheld == 0)
            continue;
        text_add(&t, "port %u so far: %u malformed, %u for others, %llu lost in the queue, %llu sends failed, %llu Markers not answered", i, c->illegal_received,
                 c->unknown_received, (unsigned long long)p->lost, (unsigned long long)p->failed_sends, (unsigned long long)p->withheld);
        draw(screen, DIM, octets);
    }
}

static struct screen screen_of(const struct show *show, char *octets, size_t size)
{
    struct winsize window = {0};
    ioctl(show->out->file, TIOCGWINSZ, &window);
    const unsigned rows = window.ws_row == 0 ? 24 : window.ws_row;
    return (struct screen){
        .text = text_in(octets, size),
        .row = show->row,
        .end = show->rows == 0 || show->row + show->rows > rows ? rows : show->row + show->rows,
        .columns = window.ws_col == 0 ? 80 : window.ws_col,
        .has_colours = getenv("NO_COLOR") == NULL,
    };
}

void show_view(struct show *show, const struct driver *d, enum because because)
{
    static char octets[PORTS * 1024];
    struct screen screen = screen_of(show, octets, sizeof octets);
    if (show->out->length > 0)
        return; /* the last one is not drawn yet */
    if (because == BECAUSE_START && show->rows == 0)
        text_add(&screen.text, "\033[2J");
    draw_us(&screen, show, d);
    for (uint32_t i = 1; i <= d->count; i++)
        draw_trunk(&screen, show, d, i);
    draw_head(&screen, d);
    for (uint32_t i = 1; i <= d->count; i++)
        draw_port(&screen, show, d, i);
    draw_refused(&screen, d);
    const unsigned below = screen.row;
    while (screen.row < screen.end)
        draw(&screen, PLAIN, "");
    text_add(&screen.text, "\033[%u;1H", because == BECAUSE_END && show->rows == 0 ? below + 1 : screen.end);
    out_write(show->out, screen.text.octets, screen.text.length);
}
