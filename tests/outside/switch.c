/*
 * A switch behind a pipe: each line on standard input is one call of include/myrkosti.h on one table, and gets one line on standard
 * output, the answer number and what belongs to it. Numbers are decimal, octets hexadecimal, no octets '-', flags 0 or 1.
 *
 *   start PORTS SYSTEM_PRIORITY SYSTEM DELAY SETTINGS
 *   settings PORT SETTINGS            SETTINGS: ADDRESS KEY PORT_PRIORITY ACTIVITY TIMEOUT AGGREGATION PARTNER
 *   line PORT UP FULL
 *   tick
 *   receive PORT FRAME                answer, Response
 *   due                               answer, ports
 *   fetch PORT                        answer, LACPDU
 *   ask PORT TICKS                    answer, Marker; by today's library alone
 *   port PORT                         answer, record
 *   aggregator NUMBER                 answer, holding, attached, distributing, count, lowest
 *   why PORT                          answer, cause, holder, ticks; by today's library alone
 *   apart FIRST SECOND                answer, reasons; by today's library alone
 *   counters PORT                     0, the seven counters of struct myrkosti_counters, from zeros at the start on
 *   forward, back                     the table goes to today's library, or to the one of before, which makes the calls from then on
 *
 * With the argument --mute it never sends: nothing is due, a fetch and an ask find nothing, and a Marker gets no Response. With --yesterday it begins with
 * the library of yesterday, which counts nothing and whose records have zeros where today's have churn fields; with --lately with that of lately. Both have
 * zeros where today's tell of Markers of their own. With --blind it says of every port that does not carry that it waits, and of no two that they are apart.
 * A line that it cannot read ends it.
 */
#include "myrkosti.h"

#include "yesterday.h"

#include <stdio.h>
#include <stdlib.h>
#include <string.h>

enum { LINE = 8192, FRAME = 2048 };

static const struct library *library = &TODAY, *before = &YESTERDAY; /* the one that makes the calls, and the one that today's goes back to */
static uint8_t table[MYRKOSTI_TABLE(MYRKOSTI_PORTS)];
static size_t size;
static struct myrkosti_counters counters[MYRKOSTI_PORTS + 1]; /* of each port; the first is lent where the number is of none */
static bool mute, blind;

struct settings {
    uint8_t address[6], partner[MYRKOSTI_BLOCK];
    uint16_t key, priority;
    bool activity, timeout, aggregation;
};

static void wrong(const char *what)
{
    fprintf(stderr, "switch: not understood: %s\n", what);
    exit(2);
}

static char *word(void)
{
    char *next = strtok(NULL, " \n");
    if (next == NULL)
        wrong("a line that ends early");
    return next;
}

static uint32_t number(uint32_t most)
{
    char *text = word(), *end;
    unsigned long long value = strtoull(text, &end, 10);
    if (*end != 0 || value > most)
        wrong(text);
    return (uint32_t)value;
}

static bool flag(void)
{
    return number(1) == 1;
}

/* the octets of the next word, at most `most`; how many there are */
static size_t octets(uint8_t *to, size_t most)
{
    const char *text = word();
    size_t digits = strcmp(text, "-") == 0 ? 0 : strlen(text);
    if (digits % 2 != 0 || digits / 2 > most)
        wrong(text);
    for (size_t i = 0; i < digits / 2; i++) {
        unsigned octet;
        if (sscanf(text + 2 * i, "%2x", &octet) != 1)
            wrong(text);
        to[i] = (uint8_t)octet;
    }
    return digits / 2;
}

static void exactly(uint8_t *to, size_t count)
{
    if (octets(to, count) != count)
        wrong("too few octets");
}

static struct settings settings(void)
{
    struct settings s;
    exactly(s.address, sizeof s.address);
    s.key = (uint16_t)number(UINT16_MAX);
    s.priority = (uint16_t)number(UINT16_MAX);
    s.activity = flag();
    s.timeout = flag();
    s.aggregation = flag();
    exactly(s.partner, sizeof s.partner);
    return s;
}

static void say(uint32_t answer)
{
    printf("%u\n", (unsigned)answer);
}

static void say_octets(uint32_t answer, const uint8_t *from, size_t count)
{
    printf("%u %s", (unsigned)answer, count == 0 ? "-" : "");
    for (size_t i = 0; i < count; i++)
        printf("%02x", from[i]);
    printf("\n");
}

static struct myrkosti_counters *counters_of(uint32_t port)
{
    return &counters[port <= MYRKOSTI_PORTS ? port : 0];
}

static void do_start(void)
{
    uint8_t system[6];
    uint32_t ports = number(MYRKOSTI_PORTS);
    uint16_t priority = (uint16_t)number(UINT16_MAX);
    exactly(system, sizeof system);
    uint16_t delay = (uint16_t)number(UINT16_MAX);
    struct settings s = settings();
    size = library->table_size(ports);
    memset(counters, 0, sizeof counters);
    say(library->start(table, size, ports, priority, system, delay, s.address, s.key, s.priority, s.activity, s.timeout, s.aggregation, s.partner));
}

static void do_settings(void)
{
    uint32_t port = number(UINT32_MAX);
    struct settings s = settings();
    say(library->settings(table, size, port, s.address, s.key, s.priority, s.activity, s.timeout, s.aggregation, s.partner));
}

static void do_line(void)
{
    uint32_t port = number(UINT32_MAX);
    bool up = flag();
    say(library->line(table, size, port, up, flag()));
}

static void do_tick(void)
{
    say(library->tick(table, size));
}

static void do_receive(void)
{
    uint8_t frame[FRAME], out[MYRKOSTI_FRAME];
    uint32_t sent, port = number(UINT32_MAX);
    size_t length = octets(frame, sizeof frame);
    uint32_t answer = library->receive(table, size, port, frame, length, out, sizeof out, &sent, counters_of(port));
    say_octets(answer, out, mute ? 0 : sent);
}

static void do_due(void)
{
    uint32_t ports, answer = library->due(table, size, &ports);
    printf("%u %u\n", (unsigned)answer, mute ? 0 : (unsigned)ports);
}

static void do_fetch(void)
{
    uint8_t out[MYRKOSTI_FRAME];
    uint32_t port = number(UINT32_MAX);
    uint32_t answer = mute ? MYRKOSTI_NOTHING_TO_SEND : library->fetch(table, size, port, out, sizeof out, counters_of(port));
    say_octets(answer, out, answer == MYRKOSTI_DONE ? sizeof out : 0);
}

static void do_ask(void)
{
    uint8_t out[MYRKOSTI_FRAME];
    const uint32_t port = number(UINT32_MAX), ticks = number(UINT32_MAX);
    const uint32_t answer = mute ? MYRKOSTI_NOT_DISTRIBUTING : myrkosti_ask(table, size, port, ticks, out, sizeof out);
    say_octets(answer, out, answer == MYRKOSTI_DONE ? sizeof out : 0);
}

static void do_port(void)
{
    uint8_t record[MYRKOSTI_RECORD] = {0};
    uint32_t answer = library->port(table, size, number(UINT32_MAX), record, sizeof record);
    say_octets(answer, record, sizeof record);
}

static void do_aggregator(void)
{
    uint32_t holding, attached, distributing, count, lowest;
    uint32_t answer = library->aggregator(table, size, number(UINT32_MAX), &holding, &attached, &distributing, &count, &lowest);
    printf("%u %u %u %u %u %u\n", (unsigned)answer, (unsigned)holding, (unsigned)attached, (unsigned)distributing, (unsigned)count,
           (unsigned)lowest);
}

static void do_why(void)
{
    uint32_t cause, holder, ticks;
    const uint32_t answer = myrkosti_why(table, size, number(UINT32_MAX), &cause, &holder, &ticks);
    if (blind && !myrkosti_is_carrying(cause))
        cause = MYRKOSTI_WAITS;
    printf("%u %u %u %u\n", (unsigned)answer, (unsigned)cause, (unsigned)holder, (unsigned)ticks);
}

static void do_apart(void)
{
    uint32_t reasons;
    const uint32_t first = number(UINT32_MAX), answer = myrkosti_apart(table, size, first, number(UINT32_MAX), &reasons);
    printf("%u %u\n", (unsigned)answer, blind ? 0 : (unsigned)reasons);
}

static void do_counters(void)
{
    const struct myrkosti_counters *c = counters_of(number(UINT32_MAX));
    printf("%u %u %u %u %u %u %u %u\n", MYRKOSTI_DONE, (unsigned)c->lacpdus_received, (unsigned)c->markers_received,
           (unsigned)c->marker_responses_received, (unsigned)c->unknown_received, (unsigned)c->illegal_received, (unsigned)c->lacpdus_sent,
           (unsigned)c->marker_responses_sent);
}

/* the table as the other library has it, which goes on with it unless the move is refused; counters stay */
static void change_library(const struct library *other)
{
    uint8_t target[sizeof table];
    const uint32_t answer = other == &TODAY ? load_today(library, table, target) : load_before(other, table, target);
    if (answer == MYRKOSTI_DONE) {
        size = other->table_size(table[0]);
        memcpy(table, target, size);
        library = other;
    }
    say(answer);
}

static void do_forward(void)
{
    change_library(&TODAY);
}

static void do_back(void)
{
    change_library(before);
}

static const struct {
    const char *name;
    void (*act)(void);
} COMMANDS[] = {
    {"start", do_start}, {"settings", do_settings}, {"line", do_line}, {"tick", do_tick},
    {"receive", do_receive}, {"due", do_due}, {"fetch", do_fetch}, {"ask", do_ask}, {"port", do_port}, {"aggregator", do_aggregator},
    {"why", do_why}, {"apart", do_apart}, {"counters", do_counters}, {"forward", do_forward}, {"back", do_back},
};

static void obey(char *line)
{
    const char *name = strtok(line, " \n");
    for (size_t i = 0; name != NULL && i < sizeof COMMANDS / sizeof *COMMANDS; i++)
        if (strcmp(name, COMMANDS[i].name) == 0) {
            COMMANDS[i].act();
            return;
        }
    wrong(name == NULL ? "an empty line" : name);
}

int main(int count, char **arguments)
{
    static char line[LINE];
    mute = count == 2 && strcmp(arguments[1], "--mute") == 0;
    blind = count == 2 && strcmp(arguments[1], "--blind") == 0;
    if (count == 2 && strcmp(arguments[1], "--lately") == 0)
        before = &LATELY;
    if (count == 2 && (before == &LATELY || strcmp(arguments[1], "--yesterday") == 0))
        library = before;
    setvbuf(stdout, NULL, _IOLBF, 0);
    while (fgets(line, sizeof line, stdin) != NULL)
        obey(line);
    return 0;
}
