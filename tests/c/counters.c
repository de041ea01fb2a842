/*
 * The counters of a port through include/myrkosti.h (30.7.3): what each answer of a receive and a fetch counts, from any numbers on, and what they add up to
 * along runs. Prints one line for each check that fails, and how many passed.
 */
#include "myrkosti.h"

#include "any.h"
#include "check.h"
#include "layout.h"
#include "neighbour.h"

#include <stdio.h>
#include <string.h>

enum { PORTS = 3, SIZE = MYRKOSTI_TABLE(PORTS), WHOLE = MYRKOSTI_FRAME };

/* the counters by their places in the record; the first five are of frames received */
enum { LACPDUS, MARKERS, RESPONSES, UNKNOWN, ILLEGAL, LACPDUS_SENT, RESPONSES_SENT, COUNTERS };

static const uint32_t MOST = 4294967295u;

/* a set of counters */
#define OF(counter) (1u << (counter))
#define NONE 0

/* the same as numbers one behind the other */
struct numbers {
    uint32_t of[COUNTERS];
};

static struct numbers numbers_of(const struct myrkosti_counters *counters)
{
    struct numbers numbers;
    memcpy(&numbers, counters, sizeof numbers);
    return numbers;
}

static struct myrkosti_counters counters_of(const struct numbers *numbers)
{
    struct myrkosti_counters counters;
    memcpy(&counters, numbers, sizeof counters);
    return counters;
}

/* ---- three ports: one that distributes and awaits a Marker's Response, one at half duplex that waits, one without a link ---- */

enum { CARRIES = 1, HALVED = 2, DOWN = 3 };

static const uint8_t ADDRESS[6] = {0x02, 0x00, 0x5e, 0x10, 0x20, 0x30};

/* a partner that is in sync and collects by default, so that a port carries unheard */
static struct myrkosti_port_settings settings_of(uint16_t key)
{
    struct myrkosti_port_settings settings = myrkosti_usual_settings(ADDRESS, key);
    settings.partner[MYRKOSTI_BLOCK_STATE] = MYRKOSTI_TIMEOUT | MYRKOSTI_SYNCHRONIZATION | MYRKOSTI_COLLECTING;
    return settings;
}

static void set_key(uint8_t *table, uint32_t port, uint16_t key)
{
    const struct myrkosti_port_settings settings = settings_of(key);
    IS(myrkosti_settings_with(table, SIZE, port, &settings), MYRKOSTI_DONE);
}

static void start(uint8_t *table)
{
    const struct myrkosti_system system = myrkosti_usual_system(ADDRESS);
    const struct myrkosti_port_settings settings = settings_of(1);
    IS(myrkosti_start_with(table, SIZE, PORTS, &system, &settings), MYRKOSTI_DONE);
}

/* asks for a Marker; a port that awaits one, or does not distribute, goes on without another */
static uint32_t ask(uint8_t *table, uint32_t port)
{
    uint8_t marker[MYRKOSTI_FRAME];
    return myrkosti_ask(table, SIZE, port, 1 + any(MYRKOSTI_LONGEST_WAIT), marker, sizeof marker);
}

static void three_ports(uint8_t *table)
{
    start(table);
    IS(myrkosti_line(table, SIZE, CARRIES, true, true), MYRKOSTI_DONE);
    for (int ticks = 0; ticks < 60; ticks++)
        IS(myrkosti_tick(table, SIZE), MYRKOSTI_DONE);
    IS(table[place(PORTS, CARRIES, MYRKOSTI_AT_MUX)], MYRKOSTI_MUX_DISTRIBUTING);
    IS(table[place(PORTS, CARRIES, MYRKOSTI_AT_NTT)], 1);
    IS(ask(table, CARRIES), MYRKOSTI_DONE);
    IS(myrkosti_line(table, SIZE, HALVED, true, false), MYRKOSTI_DONE);
    IS(table[place(PORTS, HALVED, MYRKOSTI_AT_MUX)], MYRKOSTI_MUX_WAITING);
}

/* ---- every answer ---- */

enum kind { LACPDU, MARKER, RESPONSE, AWAITED };

/* the transaction of the last Marker that a port asked for */
static uint32_t last_asked(const uint8_t *table, uint32_t port)
{
    return port >= 1 && port <= PORTS ? myrkosti_long_number(table + place(PORTS, port, MYRKOSTI_AT_MARKER_NUMBER)) - 1 : 0;
}

/* the neighbour says that it is in sync and collects, and not aggregatable, so that it need not name us; a Response brings back what a port asked for, or not */
static void put_kind(uint8_t frame[MYRKOSTI_FRAME], enum kind kind, const uint8_t *table, uint32_t port)
{
    static const uint8_t NEIGHBOUR[MYRKOSTI_BLOCK] = {0, 1, 0, 0, 0, 0, 0, 5, 0, 1, 0, 1, 0, 1, 0x3b};
    if (kind == LACPDU)
        put_lacpdu(frame, NEIGHBOUR, NEIGHBOUR);
    else if (kind == AWAITED)
        put_response(frame, (uint16_t)port, ADDRESS, last_asked(table, port));
    else
        put_marker(frame, kind == MARKER ? 1 : 2);
}

/* a frame of some kind with one octet of it changed, unless that is octet 0; how it is handed over; and what comes of it */
struct heard {
    const char *what;
    enum kind kind;
    uint8_t at, octet;
    size_t length;
    uint32_t port;
    size_t table_len, out_len;
    uint32_t answer, counts;
};

#define AS_IT_IS 0, 0
#define ON(port) port, SIZE, WHOLE

static const struct heard HEARD[] = {
    {"an LACPDU", LACPDU, AS_IT_IS, WHOLE, ON(CARRIES), MYRKOSTI_DONE, OF(LACPDUS)},
    {"an LACPDU of another version", LACPDU, 15, 9, WHOLE, ON(CARRIES), MYRKOSTI_DONE, OF(LACPDUS)},
    {"an LACPDU without a link", LACPDU, AS_IT_IS, WHOLE, ON(DOWN), MYRKOSTI_LACP_OFF, OF(LACPDUS)},
    {"an LACPDU at half duplex", LACPDU, AS_IT_IS, WHOLE, ON(HALVED), MYRKOSTI_LACP_OFF, OF(LACPDUS)},
    {"a Marker", MARKER, AS_IT_IS, WHOLE, ON(CARRIES), MYRKOSTI_DONE, OF(MARKERS) | OF(RESPONSES_SENT)},
    {"a Marker on a port that waits", MARKER, AS_IT_IS, WHOLE, ON(HALVED), MYRKOSTI_NOT_COLLECTING, OF(MARKERS)},
    {"a Marker without a link", MARKER, AS_IT_IS, WHOLE, ON(DOWN), MYRKOSTI_NOT_COLLECTING, OF(MARKERS)},
    {"a Response", RESPONSE, AS_IT_IS, WHOLE, ON(CARRIES), MYRKOSTI_RESPONSE, OF(RESPONSES)},
    {"a Response without a link", RESPONSE, AS_IT_IS, WHOLE, ON(DOWN), MYRKOSTI_RESPONSE, OF(RESPONSES)},
    {"the Response that is awaited", AWAITED, AS_IT_IS, WHOLE, ON(CARRIES), MYRKOSTI_DONE, OF(RESPONSES)},
    {"the Response that is awaited, but for its port", AWAITED, 18, 1, WHOLE, ON(CARRIES), MYRKOSTI_RESPONSE, OF(RESPONSES)},
    {"a Response where none is awaited", AWAITED, AS_IT_IS, WHOLE, ON(HALVED), MYRKOSTI_RESPONSE, OF(RESPONSES)},
    {"the Response that is awaited, of 123 octets", AWAITED, AS_IT_IS, WHOLE - 1, ON(CARRIES), MYRKOSTI_ILLEGAL, OF(ILLEGAL)},
    {"the Response that is awaited, with a short buffer", AWAITED, AS_IT_IS, WHOLE, CARRIES, SIZE, WHOLE - 1, MYRKOSTI_BUFFER_SHORT, NONE},
    {"another type", LACPDU, TYPE_AT + 1, 0x08, WHOLE, ON(CARRIES), MYRKOSTI_UNKNOWN, OF(UNKNOWN)},
    {"another type, and short", LACPDU, TYPE_AT, 0x81, 14, ON(CARRIES), MYRKOSTI_UNKNOWN, OF(UNKNOWN)},
    {"subtype 3", LACPDU, SUBTYPE_AT, 3, WHOLE, ON(CARRIES), MYRKOSTI_UNKNOWN, OF(UNKNOWN)},
    {"subtype 10 without a link", MARKER, SUBTYPE_AT, 10, WHOLE, ON(DOWN), MYRKOSTI_UNKNOWN, OF(UNKNOWN)},
    {"subtype 0", LACPDU, SUBTYPE_AT, 0, WHOLE, ON(CARRIES), MYRKOSTI_ILLEGAL, OF(ILLEGAL)},
    {"subtype 11", LACPDU, SUBTYPE_AT, 11, WHOLE, ON(CARRIES), MYRKOSTI_ILLEGAL, OF(ILLEGAL)},
    {"a short LACPDU", LACPDU, AS_IT_IS, WHOLE - 1, ON(CARRIES), MYRKOSTI_ILLEGAL, OF(ILLEGAL)},
    {"a short LACPDU without a link", LACPDU, AS_IT_IS, WHOLE - 1, ON(DOWN), MYRKOSTI_ILLEGAL, OF(ILLEGAL)},
    {"an LACPDU with another length of a block", LACPDU, 37, 19, WHOLE, ON(CARRIES), MYRKOSTI_ILLEGAL, OF(ILLEGAL)},
    {"neither Marker nor Response", MARKER, 16, 3, WHOLE, ON(CARRIES), MYRKOSTI_ILLEGAL, OF(ILLEGAL)},
    {"a short Marker without a link", MARKER, AS_IT_IS, 15, ON(DOWN), MYRKOSTI_ILLEGAL, OF(ILLEGAL)},
    {"another address", LACPDU, 5, 3, WHOLE, ON(CARRIES), MYRKOSTI_FOREIGN, NONE},
    {"13 octets", LACPDU, AS_IT_IS, 13, ON(CARRIES), MYRKOSTI_FOREIGN, NONE},
    {"no octet", MARKER, AS_IT_IS, 0, ON(CARRIES), MYRKOSTI_FOREIGN, NONE},
    {"an LACPDU with a short buffer", LACPDU, AS_IT_IS, WHOLE, CARRIES, SIZE, WHOLE - 1, MYRKOSTI_BUFFER_SHORT, NONE},
    {"a Response without a buffer", RESPONSE, AS_IT_IS, WHOLE, CARRIES, SIZE, 0, MYRKOSTI_BUFFER_SHORT, NONE},
    {"a Marker on no port", MARKER, AS_IT_IS, WHOLE, ON(0), MYRKOSTI_NO_SUCH_PORT, NONE},
    {"subtype 3 on no port", LACPDU, SUBTYPE_AT, 3, WHOLE, ON(PORTS + 1), MYRKOSTI_NO_SUCH_PORT, NONE},
    {"an LACPDU and no table", LACPDU, AS_IT_IS, WHOLE, CARRIES, SIZE - 1, WHOLE, MYRKOSTI_TABLE_WRONG, NONE},
    {"a short Marker and no memory", MARKER, AS_IT_IS, 15, CARRIES, 0, WHOLE, MYRKOSTI_TABLE_WRONG, NONE},
};

/* a fetch after so many others; and what comes of it */
struct fetched {
    const char *what;
    unsigned before;
    uint32_t port;
    size_t table_len, out_len;
    uint32_t answer, counts;
};

static const struct fetched FETCHED[] = {
    {"a fetch", 0, ON(CARRIES), MYRKOSTI_DONE, OF(LACPDUS_SENT)},
    {"a third fetch", 2, ON(CARRIES), MYRKOSTI_DONE, OF(LACPDUS_SENT)},
    {"a fourth fetch", 3, ON(CARRIES), MYRKOSTI_TOO_MANY_SENDS, NONE},
    {"a fetch at half duplex", 0, ON(HALVED), MYRKOSTI_NOTHING_TO_SEND, NONE},
    {"a fetch without a link", 0, ON(DOWN), MYRKOSTI_NOTHING_TO_SEND, NONE},
    {"a fetch with a short buffer", 0, CARRIES, SIZE, WHOLE - 1, MYRKOSTI_BUFFER_SHORT, NONE},
    {"a fetch on no port", 0, ON(PORTS + 1), MYRKOSTI_NO_SUCH_PORT, NONE},
    {"a fetch and no table", 0, CARRIES, SIZE - 1, WHOLE, MYRKOSTI_TABLE_WRONG, NONE},
};
enum { MOST_BEFORE = 3 };

#define COUNT(array) (sizeof array / sizeof array[0])

/* what is lent to a call, with numbers on both sides of the counters that it must not touch */
struct lent {
    uint8_t table[SIZE], frame[WHOLE], out[WHOLE];
    uint32_t ahead;
    struct myrkosti_counters counters;
    uint32_t behind, sent;
};

static uint32_t hear(const struct heard *heard, struct lent *lent, struct myrkosti_counters *counters)
{
    put_kind(lent->frame, heard->kind, lent->table, heard->port);
    if (heard->at != 0)
        lent->frame[heard->at] = heard->octet;
    return myrkosti_receive(lent->table, heard->table_len, heard->port, lent->frame, heard->length, lent->out, heard->out_len, &lent->sent, counters);
}

static uint32_t fetch(const struct fetched *fetched, struct lent *lent, struct myrkosti_counters *counters)
{
    return myrkosti_fetch(lent->table, fetched->table_len, fetched->port, lent->out, fetched->out_len, counters);
}

static void holds_after(bool holds, const char *that, const char *call)
{
    char text[120];
    snprintf(text, sizeof text, "%s after %s", that, call);
    check(holds, text);
}

/* these counters have moved by one and no others; a refusal has moved nothing else */
static void judge(const char *call, const struct lent *before, const struct lent *after, bool refused, uint32_t counts)
{
    struct numbers expected = numbers_of(&before->counters);
    for (unsigned counter = 0; counter < COUNTERS; counter++)
        expected.of[counter] += (counts & OF(counter)) != 0;
    holds_after(memcmp(&after->counters, &expected, sizeof expected) == 0, "counters", call);
    holds_after(after->ahead == before->ahead && after->behind == before->behind, "what lies beside the counters", call);
    if (refused) {
        holds_after(memcmp(after->table, before->table, SIZE) == 0, "table", call);
        holds_after(memcmp(after->out, before->out, WHOLE) == 0, "outgoing buffer", call);
    }
}

/* three ports, and an LACPDU due on one that has sent so many in this tick */
static void lend(struct lent *lent, unsigned sends, const struct numbers *numbers)
{
    memset(lent, 0xa5, sizeof *lent);
    three_ports(lent->table);
    for (unsigned i = 0; i < sends; i++) {
        IS(fetch(&FETCHED[0], lent, &lent->counters), MYRKOSTI_DONE);
        set_key(lent->table, CARRIES, (uint16_t)(2 + i));
    }
    lent->counters = counters_of(numbers);
}

static void every_answer(const struct numbers *numbers)
{
    static struct lent before[MOST_BEFORE + 1];
    for (unsigned sends = 0; sends <= MOST_BEFORE; sends++)
        lend(&before[sends], sends, numbers);
    for (size_t i = 0; i < COUNT(HEARD); i++) {
        struct lent after = before[0];
        const uint32_t answer = hear(&HEARD[i], &after, &after.counters);
        holds_after(answer == HEARD[i].answer, "the answer", HEARD[i].what);
        IS(after.sent, (HEARD[i].counts & OF(RESPONSES_SENT)) != 0 ? WHOLE : 0);
        judge(HEARD[i].what, &before[0], &after, answer != MYRKOSTI_DONE, HEARD[i].counts);
    }
    for (size_t i = 0; i < COUNT(FETCHED); i++) {
        const struct lent *from = &before[FETCHED[i].before];
        struct lent after = *from;
        const uint32_t answer = fetch(&FETCHED[i], &after, &after.counters);
        holds_after(answer == FETCHED[i].answer, "the answer", FETCHED[i].what);
        judge(FETCHED[i].what, from, &after, answer != MYRKOSTI_DONE, FETCHED[i].counts);
    }
}

/* zeros, each of them alone at the most, all where they carry into another bit or beyond the last, and any */
static void every_answer_from_any_numbers(void)
{
    struct numbers numbers = {{0}};
    every_answer(&numbers);
    for (unsigned alone = 0; alone < COUNTERS; alone++) {
        for (unsigned i = 0; i < COUNTERS; i++)
            numbers.of[i] = i == alone ? MOST : i;
        every_answer(&numbers);
    }
    for (unsigned bits = 1; bits <= 32; bits++) {
        for (unsigned i = 0; i < COUNTERS; i++)
            numbers.of[i] = MOST >> (32 - bits);
        every_answer(&numbers);
    }
    for (int times = 0; times < 20; times++) {
        for (unsigned i = 0; i < COUNTERS; i++)
            numbers.of[i] = any(MOST);
        every_answer(&numbers);
    }
}

/* ---- along runs ---- */

/* what there was to count on a port, by the answers */
struct tally {
    uint32_t of_answer[MYRKOSTI_RESPONSE + 1]; /* to receives */
    uint32_t markers_answered, responses_taken, fetched;
};

/* one of the frames above on any port, mostly as it is and otherwise with any octet behind the addresses changed */
static void receive_any(struct lent *lent, uint32_t port, struct myrkosti_counters *counters, struct tally *tally)
{
    struct heard heard = HEARD[any(COUNT(HEARD))];
    heard.port = port;
    if (any(4) == 0) {
        heard.at = (uint8_t)(TYPE_AT + any(50));
        heard.octet = (uint8_t)any(256);
    }
    const uint32_t answer = hear(&heard, lent, counters);
    tally->of_answer[answer]++;
    tally->markers_answered += lent->sent != 0;
    tally->responses_taken += answer == MYRKOSTI_DONE && lent->sent == 0 && lent->frame[SUBTYPE_AT] == 2;
}

static void fetch_any(struct lent *lent, uint32_t port, struct myrkosti_counters *counters, struct tally *tally)
{
    struct fetched fetched = FETCHED[any(COUNT(FETCHED))];
    fetched.port = port;
    tally->fetched += fetch(&fetched, lent, counters) == MYRKOSTI_DONE;
}

/* a call that is lent no counters, mostly a tick, often an ask */
static void call_any(uint8_t *table)
{
    const uint32_t port = 1 + any(PORTS), kind = any(200);
    if (kind == 0)
        start(table);
    else if (kind == 1)
        set_key(table, port, (uint16_t)(1 + any(3)));
    else if (kind < 10)
        IS(myrkosti_line(table, SIZE, port, any(4) != 0, any(4) != 0), MYRKOSTI_DONE);
    else if (kind < 60)
        ask(table, port);
    else
        IS(myrkosti_tick(table, SIZE), MYRKOSTI_DONE);
}

/* by how much the counters have moved, each by itself and the five of received frames together: receives not answered 1, 2, 3 or 6 */
static void adds_up(struct numbers before, struct numbers after, const struct tally *tally)
{
    const uint32_t *const answered = tally->of_answer;
    struct numbers rise;
    for (unsigned i = 0; i < COUNTERS; i++)
        rise.of[i] = after.of[i] - before.of[i];
    IS(rise.of[LACPDUS] + rise.of[MARKERS] + rise.of[RESPONSES] + rise.of[UNKNOWN] + rise.of[ILLEGAL],
       answered[0] + answered[5] + answered[7] + answered[8] + answered[9] + answered[12]);
    IS(rise.of[LACPDUS], answered[MYRKOSTI_DONE] - tally->markers_answered - tally->responses_taken + answered[MYRKOSTI_LACP_OFF]);
    IS(rise.of[MARKERS], tally->markers_answered + answered[MYRKOSTI_NOT_COLLECTING]);
    IS(rise.of[RESPONSES], tally->responses_taken + answered[MYRKOSTI_RESPONSE]);
    IS(rise.of[UNKNOWN], answered[MYRKOSTI_UNKNOWN]);
    IS(rise.of[ILLEGAL], answered[MYRKOSTI_ILLEGAL]);
    IS(rise.of[LACPDUS_SENT], tally->fetched);
    IS(rise.of[RESPONSES_SENT], tally->markers_answered);
}

/* a record for each port, and for two that are not there; all that a run can answer was answered */
static void run(const struct numbers *numbers)
{
    static struct lent lent;
    struct myrkosti_counters counters[PORTS + 2];
    struct tally tallies[PORTS + 2];
    memset(tallies, 0, sizeof tallies);
    start(lent.table);
    for (uint32_t port = 0; port <= PORTS + 1; port++)
        counters[port] = counters_of(numbers);
    for (int calls = 0; calls < 40000; calls++) {
        const uint32_t port = any(PORTS + 2), kind = any(3);
        if (kind == 0)
            receive_any(&lent, port, &counters[port], &tallies[port]);
        else if (kind == 1)
            fetch_any(&lent, port, &counters[port], &tallies[port]);
        else
            call_any(lent.table);
    }
    for (uint32_t port = 0; port <= PORTS + 1; port++) {
        adds_up(*numbers, numbers_of(&counters[port]), &tallies[port]);
        check(port % (PORTS + 1) == 0 || (tallies[port].markers_answered > 10 && tallies[port].responses_taken > 10 && tallies[port].fetched > 10 &&
                                          tallies[port].of_answer[MYRKOSTI_LACP_OFF] > 10 && tallies[port].of_answer[MYRKOSTI_NOT_COLLECTING] > 10),
              "a port heard and sent something of each kind");
    }
}

static void add_up_along_runs(void)
{
    struct numbers numbers = {{0}};
    run(&numbers);
    for (unsigned i = 0; i < COUNTERS; i++)
        numbers.of[i] = MOST - i; /* so that each passes 0 on its way */
    run(&numbers);
}

int main(void)
{
    every_answer_from_any_numbers();
    add_up_along_runs();
    return finish("counters");
}
