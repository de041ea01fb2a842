#include "driver.h"

#include <errno.h>
#include <linux/ethtool.h>
#include <linux/netlink.h>
#include <poll.h>
#include <string.h>
#include <sys/socket.h>
#include <unistd.h>

#include "clock.h"
#include "sockets.h"

enum { FRAMES_A_TURN = 64, NOTICES_A_TURN = 64, LONGEST_FRAME = 65536 + 64 };
enum { TICKS_OF_SLEEP = 30 }; /* after so many without a tick the neighbours have given this switch up */
enum { KEY_OF_LEAVING = 0xff00 };
#define SECOND_ON_THE_WIRE (SECOND + TICK / 2) /* a frame may wait a little between our clock and the wire */

/* ---- a port ---- */

static void close_sockets(struct port *p)
{
    if (p->lacp >= 0)
        close(p->lacp);
    if (p->traffic >= 0)
        close(p->traffic);
    p->lacp = p->traffic = -1;
}

/* A new socket for traffic hears nothing yet, whatever the one before did. */
static void open_sockets(struct driver *d, uint32_t port)
{
    struct port *p = &d->ports[port];
    close_sockets(p);
    d->tap.collecting &= ~bit_of(port);
    p->lacp = socket_for_lacp(p->link.index);
    p->open_trouble = p->lacp < 0 ? errno : 0;
    if (p->lacp >= 0 && d->tap.file >= 0)
        p->traffic = socket_for_traffic(p->link.index);
}

static struct myrkosti_port_settings settings_of(const struct driver *d, uint32_t port, uint16_t key)
{
    struct myrkosti_port_settings settings = myrkosti_usual_settings(d->ports[port].link.address, key);
    settings.activity = d->options->is_active;
    settings.timeout = d->options->is_short;
    settings.aggregation = !d->options->is_alone;
    return settings;
}

static void set(struct driver *d, uint32_t port, uint16_t key)
{
    const struct myrkosti_port_settings settings = settings_of(d, port, key);
    myrkosti_settings_with(d->kept->table, d->table.length, port, &settings);
}

static void tell_line(struct driver *d, uint32_t port, bool is_up)
{
    myrkosti_line(d->kept->table, d->table.length, port, is_up, d->ports[port].link.duplex != DUPLEX_HALF);
    if (!is_up)
        d->kept->waiting &= ~bit_of(port); /* what was to be said has nobody to hear it */
}

/* A port's interface as it is now: its address before its link. Values as they are change nothing. */
static void tell(struct driver *d, uint32_t port)
{
    const struct port *p = &d->ports[port];
    if (p->link.index != 0)
        set(d, port, p->key);
    tell_line(d, port, p->link.is_up && p->lacp >= 0);
    d->something_happened = true;
}

/* ---- step 1 ---- */

/* The system as a table has it: behind its port count the priority and the address (docs/TABLE.md). */
static bool is_of_system(const uint8_t *table, const struct options *options)
{
    return myrkosti_number(table + 1) == options->system_priority && (!options->has_system || memcmp(table + 3, options->system, 6) == 0);
}

/* The address of this system: as asked for, or as it was, or that of the first interface that is there. */
static bool find_system(struct driver *d, struct text *trouble)
{
    const uint8_t *address = d->options->has_system ? d->options->system : d->left == LEFT_TABLE ? d->kept->table + 3 : NULL;
    for (uint32_t port = 1; address == NULL && port <= d->count; port++)
        if (d->ports[port].link.index != 0)
            address = d->ports[port].link.address;
    if (address == NULL) {
        text_add(trouble, "no interface is there of those named: name the system by --system, and they are waited for");
        return false;
    }
    d->system = myrkosti_usual_system(address);
    d->system.priority = d->options->system_priority;
    return true;
}

/* Waits until the kernel has told of all interfaces. */
static void hear_all_links(struct driver *d)
{
    const int64_t end = now() + SECOND;
    struct pollfd links = {.fd = d->links, .events = POLLIN};
    links_ask(d->links);
    while (now() < end && !d->something_happened && poll(&links, 1, 100) >= 0)
        driver_hear_links(d);
}

static void set_ports(struct driver *d)
{
    for (uint32_t port = 1; port <= d->count; port++) {
        struct port *p = &d->ports[port];
        *p = (struct port){.name = d->options->interfaces[port - 1], .key = d->options->keys[port - 1], .lacp = -1, .traffic = -1};
    }
}

/* A table that was left goes on, unless it is another system's. */
static bool start(struct driver *d, struct text *trouble)
{
    d->left = table_left(&d->table, d->options);
    if (d->left == LEFT_TABLE) {
        d->kept = table_work(&d->table);
        d->left = is_of_system(d->kept->table, d->options) ? LEFT_TABLE : LEFT_NO_USE;
    }
    if (!find_system(d, trouble))
        return false;
    if (d->left != LEFT_TABLE) {
        const struct myrkosti_port_settings settings = settings_of(d, 1, d->ports[1].key);
        table_clear(&d->table, d->options);
        d->kept = table_work(&d->table);
        d->kept->ticked = now();
        if (!myrkosti_fits() || myrkosti_start_with(d->kept->table, d->table.length, d->count, &d->system, &settings) != MYRKOSTI_DONE) {
            text_add(trouble, "the library does not fit this program");
            return false;
        }
        table_swap(&d->table);
    }
    return true;
}

bool driver_begin(struct driver *d, struct text *trouble)
{
    d->count = d->options->count;
    set_ports(d);
    d->links = links_open();
    if (d->links < 0) {
        text_add(trouble, "the kernel does not tell of interfaces: %s", strerror(errno));
        return false;
    }
    d->kept = NULL;
    hear_all_links(d);
    return start(d, trouble);
}

bool driver_open(struct driver *d)
{
    bool may = true;
    driver_begin_turn(d);
    const bool has_slept = now() - d->kept->ticked > TICKS_OF_SLEEP * TICK;
    for (uint32_t port = 1; port <= d->count; port++) {
        struct port *p = &d->ports[port];
        if (p->link.index != 0)
            open_sockets(d, port);
        may = may && p->open_trouble != EPERM;
        if (has_slept)
            tell_line(d, port, false); /* its neighbour has given it up since */
        tell(d, port);
    }
    if (has_slept)
        d->kept->ticked = now();
    driver_end_turn(d);
    return may;
}

/* ---- turns ---- */

void driver_begin_turn(struct driver *d)
{
    d->kept = table_work(&d->table);
}

void driver_end_turn(struct driver *d)
{
    table_swap(&d->table);
    pcap_flush(&d->pcap);
}

/* ---- step 2 ---- */

/* Another interface under the same name has its own sockets. */
static void take_link(struct driver *d, uint32_t port, const struct link *link)
{
    struct port *p = &d->ports[port];
    const bool is_another = p->link.index != link->index;
    if (is_another && d->kept != NULL)
        tell_line(d, port, false);
    p->link = *link;
    p->is_listed = true;
    links_read_line(d->links, p->name, &p->link);
    if (d->kept == NULL)
        return; /* before the start: sockets are opened and links told of after it */
    if (is_another || p->lacp < 0)
        open_sockets(d, port);
    tell(d, port);
}

static void lose_link(struct driver *d, uint32_t port)
{
    struct port *p = &d->ports[port];
    if (p->link.index == 0)
        return;
    p->link.index = p->link.master = 0;
    p->link.is_enabled = p->link.is_up = false;
    close_sockets(p);
    if (d->kept != NULL)
        tell(d, port);
}

static void take_notice(struct driver *d, const struct notice *notice)
{
    const bool is_end = notice->told == TOLD_END;
    d->is_list_broken |= notice->is_broken;
    for (uint32_t port = 1; port <= d->count; port++) {
        struct port *p = &d->ports[port];
        const bool is_named = strcmp(notice->name, p->name) == 0;
        if (notice->told == TOLD_LINK && is_named)
            take_link(d, port, &notice->link);
        else if (notice->told != TOLD_OTHER && !is_end && notice->link.index == p->link.index)
            lose_link(d, port); /* removed, or called otherwise */
        if (is_end && !p->is_listed && !d->is_list_broken)
            lose_link(d, port);
        if (is_end)
            p->is_listed = false;
    }
    if (is_end) {
        d->is_list_broken = false;
        d->something_happened = true;
    }
}

void driver_hear_links(struct driver *d)
{
    static _Alignas(struct nlmsghdr) uint8_t octets[32768];
    for (int messages = 0; messages < NOTICES_A_TURN; messages++) {
        struct sockaddr_nl from = {0};
        socklen_t size = sizeof from;
        struct notice notice;
        size_t at = 0;
        const ssize_t length = recvfrom(d->links, octets, sizeof octets, MSG_DONTWAIT, (struct sockaddr *)&from, &size);
        if (length < 0 && errno == ENOBUFS)
            links_ask(d->links); /* some were lost */
        if (length <= 0)
            return;
        while (from.nl_pid == 0 && links_parse(octets, (size_t)length, &at, &notice))
            take_notice(d, &notice);
    }
}

/* Of a change of duplex the kernel says nothing, and a list of all interfaces brings back what got lost. */
void driver_look_at_links(struct driver *d)
{
    links_ask(d->links);
    d->second = (d->second + 1) % SECONDS_WATCHED;
    for (uint32_t port = 1; port <= d->count; port++) {
        struct port *p = &d->ports[port];
        const uint32_t lost = p->lacp >= 0 ? socket_lost(p->lacp) : 0;
        p->lost += lost;
        p->lost_lately[d->second] = lost;
        p->changes[d->second] = p->withheld_lately[d->second] = 0;
    }
}

/* ---- step 3 ---- */

/* Neighbours have given this switch up, and its table does not know: each link is told down, and then as it is. */
static void wake_up(struct driver *d)
{
    for (uint32_t port = 1; port <= d->count; port++) {
        const struct port *p = &d->ports[port];
        tell_line(d, port, false);
        if (p->lacp >= 0)
            tell(d, port);
    }
}

static void look_at_carriers(struct driver *d)
{
    for (uint32_t port = 1; port <= d->count; port++) {
        struct port *p = &d->ports[port];
        const bool is_up = p->link.is_enabled && links_has_carrier(d->links, p->name, p->link.is_up);
        if (p->link.index != 0 && is_up != p->link.is_up) {
            p->link.is_up = is_up;
            tell(d, port);
        }
    }
}

void driver_tick(struct driver *d, int64_t late)
{
    const uint64_t missed = (uint64_t)(late / TICK);
    look_at_carriers(d);
    if (missed >= TICKS_OF_SLEEP)
        wake_up(d);
    myrkosti_tick(d->kept->table, d->table.length);
    d->kept->ticked = now();
    d->ticks++;
    d->missed += missed;
    if (late > d->latest)
        d->latest = late;
    d->something_happened = true;
}

/* ---- step 4 ---- */

/* What an LACPDU tells that no record keeps: when it came, what it says of us, and whether it is of another partner than the one before. */
static void note_lacpdu(struct driver *d, struct port *p, const uint8_t *frame, size_t length)
{
    const size_t identity = MYRKOSTI_BLOCK_STATE; /* all of a block but its state */
    if (p->heard != 0 && memcmp(p->lacpdu + LACPDU_ACTOR, frame + LACPDU_ACTOR, identity) != 0)
        p->changes[d->second]++;
    memcpy(p->lacpdu, frame, length < sizeof p->lacpdu ? length : sizeof p->lacpdu);
    p->heard = now();
}

/* At most five in any one second (43.5.4.1 allows it, and a flood of Markers is not answered by another). One that cannot be sent is lost. */
static void respond(struct driver *d, uint32_t port, const uint8_t *response)
{
    struct port *p = &d->ports[port];
    const int64_t time = now();
    if (d->options->listens)
        return;
    if (p->responded[p->oldest] != 0 && time - p->responded[p->oldest] <= SECOND_ON_THE_WIRE) {
        p->withheld++;
        p->withheld_lately[d->second]++;
        return;
    }
    p->responded[p->oldest] = time;
    p->oldest = (p->oldest + 1) % RESPONSES_A_SECOND;
    if (socket_send(p->lacp, response, MYRKOSTI_FRAME))
        pcap_frame(&d->pcap, port, OUTBOUND, wall(), response, MYRKOSTI_FRAME);
}

static void hear_one(struct driver *d, uint32_t port, const uint8_t *frame, size_t length)
{
    struct myrkosti_counters *counters = &d->kept->counters[port];
    const uint32_t lacpdus = counters->lacpdus_received;
    uint8_t response[MYRKOSTI_FRAME];
    uint32_t sent;
    pcap_frame(&d->pcap, port, INBOUND, wall(), frame, length);
    if (myrkosti_receive(d->kept->table, d->table.length, port, frame, length, response, sizeof response, &sent, counters) == MYRKOSTI_DONE)
        d->something_happened = true;
    if (counters->lacpdus_received != lacpdus)
        note_lacpdu(d, &d->ports[port], frame, length);
    if (sent != 0)
        respond(d, port, response);
}

void driver_hear(struct driver *d, uint32_t port)
{
    static uint8_t frame[LONGEST_FRAME];
    for (int frames = 0; frames < FRAMES_A_TURN; frames++) {
        const size_t length = socket_receive(d->ports[port].lacp, frame, sizeof frame);
        if (length == 0)
            return;
        hear_one(d, port, frame, length);
    }
}

/* ---- step 5 ---- */

static bool send_on(struct driver *d, uint32_t port)
{
    struct port *p = &d->ports[port];
    const uint8_t *frame = d->kept->unsent[port];
    if (p->lacp < 0 || !socket_send(p->lacp, frame, MYRKOSTI_FRAME)) {
        p->send_trouble = p->lacp < 0 ? ENODEV : errno;
        return false;
    }
    pcap_frame(&d->pcap, port, OUTBOUND, wall(), frame, MYRKOSTI_FRAME);
    return true;
}

/* A frame that cannot go is kept and tried again, unless a newer one is fetched into its place. */
static void send_what_is_due(struct driver *d)
{
    struct kept *k = d->kept;
    uint32_t due;
    myrkosti_due(k->table, d->table.length, &due);
    for (uint32_t port = 1; port <= d->count; port++) {
        const uint32_t bit = bit_of(port);
        const bool is_new = (due & bit) != 0
            && myrkosti_fetch(k->table, d->table.length, port, k->unsent[port], MYRKOSTI_FRAME, &k->counters[port]) == MYRKOSTI_DONE;
        if (!is_new && (k->waiting & bit) == 0)
            continue;
        const bool is_sent = send_on(d, port);
        k->waiting = is_sent ? k->waiting & ~bit : k->waiting | bit;
        d->ports[port].failed_sends += is_new && !is_sent;
    }
}

/* The ports of each trunk that collect, and that distribute. */
static void read_trunks(struct driver *d, uint32_t collect[PORTS + 1], uint32_t distribute[PORTS + 1])
{
    memset(collect, 0, (PORTS + 1) * sizeof *collect);
    memset(distribute, 0, (PORTS + 1) * sizeof *distribute);
    for (uint32_t i = 1; i <= d->count; i++) {
        uint8_t record[MYRKOSTI_RECORD];
        uint32_t holding, attached, count, lowest;
        myrkosti_port(d->kept->table, d->table.length, i, record, sizeof record);
        if ((record[MYRKOSTI_AT_ACTOR_STATE] & MYRKOSTI_COLLECTING) != 0)
            collect[record[MYRKOSTI_AT_AGGREGATOR]] |= bit_of(i);
        myrkosti_aggregator(d->kept->table, d->table.length, i, &holding, &attached, &distribute[i], &count, &lowest);
    }
}

/* First what the LACPDUs will say, then the LACPDUs, then what the neighbours allow (43.3.13, 43.4.15). */
void driver_program_and_send(struct driver *d)
{
    struct tap *tap = &d->tap;
    uint32_t collect[PORTS + 1], distribute[PORTS + 1];
    const bool has_something_to_do = d->something_happened && !d->options->listens;
    d->something_happened = false;
    if (!has_something_to_do)
        return;
    if (tap->file < 0) {
        send_what_is_due(d);
        return;
    }
    read_trunks(d, collect, distribute);
    tap_follow(tap, d->count, collect, distribute);
    tap_collect(tap, d->ports, d->count, tap->collecting | collect[tap->trunk]);
    tap_send_on_none_but(tap, distribute[tap->trunk]);
    send_what_is_due(d);
    tap_distribute(tap, distribute[tap->trunk]);
    tap_collect(tap, d->ports, d->count, collect[tap->trunk]);
}

/* ---- the end ---- */

void driver_leave(struct driver *d)
{
    driver_begin_turn(d);
    for (uint32_t port = 1; port <= d->count; port++)
        set(d, port, (uint16_t)(KEY_OF_LEAVING + port));
    d->something_happened = true;
    driver_program_and_send(d);
    driver_end_turn(d);
}

bool driver_has_more_to_say(const struct driver *d)
{
    uint32_t unsaid = d->kept->waiting;
    for (uint32_t port = 1; port <= d->count; port++) {
        uint8_t record[MYRKOSTI_RECORD];
        myrkosti_port(d->kept->table, d->table.length, port, record, sizeof record);
        if (record[MYRKOSTI_AT_NTT] != 0 && record[MYRKOSTI_AT_LINK] != 0 && record[MYRKOSTI_AT_DUPLEX] != 0)
            unsaid |= bit_of(port);
    }
    return unsaid != 0;
}
