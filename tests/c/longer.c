/*
 * A program of a header with a library whose record is longer than the header knows (tools/longer-record.sh): of this header with a library of tomorrow, and
 * of one of version 0x0200 with that of today. LINKED is the library's version. By how many octets its record is longer is LONGER, and what they hold after a
 * start is APPENDED. All memory that it lends is from the heap and just as long as it says, so that a checker of memory sees an octet that is touched beyond
 * it; counters too. With the word `short` it lends less than it says for a record, which the checker must see.
 */
#include "myrkosti.h"

#include "check.h"
#include "neighbour.h"

#include <stdlib.h>
#include <string.h>

enum { PORTS = 3, HEARD = 2 };

static const uint8_t ADDRESS[6] = {2, 0, 0, 0, 0, 0xa};
static const struct myrkosti_system THEM = {{0, 0, 0, 0, 0, 5}, 1, 0};

static size_t size, longer; /* the octets of the library's table and record */
static uint8_t *table;
static struct myrkosti_counters *counters; /* of port 2 */

/* octets of a record that lie by themselves: port by port, behind these the churn fields, and behind everything else the others, more than the header knows */
enum { FRONT = MYRKOSTI_AT_ACTOR_CHURN, BEHIND = MYRKOSTI_AT_PARTNER_CHURN_COUNT + 4 };

/* an octet of a record of the library's, where it lies */
static uint8_t lies(uint32_t port, size_t at)
{
    const size_t from = at < FRONT ? 0 : at < BEHIND ? FRONT : BEHIND, to = at < FRONT ? FRONT : at < BEHIND ? BEHIND : longer;
    return table[MYRKOSTI_HEADER + from * PORTS + (to - from) * (port - 1) + at - from];
}

static void *lend(size_t length)
{
    void *memory = malloc(length);
    if (memory == NULL)
        exit(2);
    return memory;
}

/* the record as this header knows it, held against the table; to be freed */
static uint8_t *look(uint32_t port)
{
    uint8_t *record = lend(MYRKOSTI_RECORD);
    IS(myrkosti_port(table, size, port, record, MYRKOSTI_RECORD), MYRKOSTI_DONE);
    for (size_t i = 0; i < MYRKOSTI_RECORD; i++) {
        IS(record[i], lies(port, i));
    }
    return record;
}

static uint8_t field(uint32_t port, unsigned at)
{
    uint8_t *record = look(port);
    const uint8_t octet = record[at];
    free(record);
    return octet;
}

/* octets of a record, as many as fit: those that this header knows and those that the library appended, or zeros */
static uint8_t expected(size_t at, size_t length, bool done)
{
    static const uint8_t MORE[LONGER] = APPENDED;
    if (at >= length || at >= longer)
        return 0xa5;
    if (!done)
        return 0;
    return at < MYRKOSTI_RECORD ? lies(1, at) : MORE[at - MYRKOSTI_RECORD];
}

/* what the library appended is there for a program that lends more, and nothing is written behind it; beside a refusal too */
static void look_at_the_whole(void)
{
    for (uint32_t port = 0; port < 2; port++) {
        for (size_t length = 0; length < longer + 9; length++) {
            uint8_t *record = lend(length + 1);
            memset(record, 0xa5, length + 1);
            IS(myrkosti_port(table, size, port, record, length), port == 1 ? MYRKOSTI_DONE : MYRKOSTI_NO_SUCH_PORT);
            for (size_t i = 0; i < length + 1; i++) {
                IS(record[i], expected(i, length, port == 1));
            }
            free(record);
        }
    }
}

static void hear(void)
{
    const struct myrkosti_system us = myrkosti_usual_system(ADDRESS);
    uint8_t *record = look(HEARD), *frame = lend(MYRKOSTI_FRAME), *out = lend(MYRKOSTI_FRAME);
    uint8_t theirs[MYRKOSTI_BLOCK], ours[MYRKOSTI_BLOCK];
    uint32_t sent;
    put_ours(ours, &us, HEARD, record);
    put_ours(theirs, &THEM, 1, record);
    theirs[MYRKOSTI_BLOCK_STATE] = 0x3f;
    put_lacpdu(frame, theirs, ours);
    IS(myrkosti_receive(table, size, HEARD, frame, MYRKOSTI_FRAME, out, MYRKOSTI_FRAME, &sent, counters), MYRKOSTI_DONE);
    free(record);
    free(frame);
    free(out);
}

/* port 2 up to DISTRIBUTING, and what it says on the way */
static void carry(void)
{
    uint8_t *out = lend(MYRKOSTI_FRAME);
    uint32_t ports, holding, attached, distributing, count, lowest;
    IS(myrkosti_line(table, size, HEARD, true, true), MYRKOSTI_DONE);
    hear();
    for (int ticks = 0; ticks < 20; ticks++) {
        IS(field(HEARD, MYRKOSTI_AT_MUX), MYRKOSTI_MUX_WAITING);
        IS(field(HEARD, MYRKOSTI_AT_ACTOR_CHURN), MYRKOSTI_CHURN_MONITOR);
        IS(myrkosti_tick(table, size), MYRKOSTI_DONE);
    }
    IS(field(HEARD, MYRKOSTI_AT_MUX), MYRKOSTI_MUX_DISTRIBUTING);
    IS(field(HEARD, MYRKOSTI_AT_ACTOR_CHURN), MYRKOSTI_NO_CHURN);
    IS(field(HEARD, MYRKOSTI_AT_PARTNER + MYRKOSTI_BLOCK_SYSTEM + 5), 5);
    IS(myrkosti_due(table, size, &ports), MYRKOSTI_DONE);
    IS(ports, 2);
    IS(myrkosti_fetch(table, size, HEARD, out, MYRKOSTI_FRAME, counters), MYRKOSTI_DONE);
    IS(counters->lacpdus_received, 1);
    IS(counters->lacpdus_sent, 1);
    IS(myrkosti_aggregator(table, size, 2, &holding, &attached, &distributing, &count, &lowest), MYRKOSTI_DONE);
    IS(distributing, 2);
    free(out);
}

/* back and forward while port 2 carries: a table has the library's own size, and one of this header's is refused */
static void move(void)
{
    const size_t old_size = myrkosti_old_table_size(PORTS), front = MYRKOSTI_HEADER + FRONT * PORTS;
    uint8_t *old = lend(old_size), *again = lend(size);
    IS(old_size, size - (BEHIND - FRONT) * PORTS);
    IS(myrkosti_back(table, size, old, old_size), MYRKOSTI_DONE);
    IS(memcmp(old, table, front), 0);
    IS(memcmp(old + front, table + size - (old_size - front), old_size - front), 0);
    IS(myrkosti_forward(old, old_size, again, MYRKOSTI_TABLE(PORTS)), MYRKOSTI_TABLE_WRONG);
    IS(myrkosti_forward(old, old_size, again, size), MYRKOSTI_DONE);
    IS(memcmp(old, again, front), 0);
    IS(memcmp(old + front, again + size - (old_size - front), old_size - front), 0);
    free(old);
    free(table);
    table = again;
    look_at_the_whole();
    IS(field(1, MYRKOSTI_AT_ACTOR_CHURN), MYRKOSTI_CHURN_MONITOR);
    IS(field(HEARD, MYRKOSTI_AT_ACTOR_CHURN), MYRKOSTI_NO_CHURN);
    IS(field(HEARD, MYRKOSTI_AT_MUX), MYRKOSTI_MUX_DISTRIBUTING);
}

/* port 2 carries, and the others have no link and nobody at their other ends; a header of version 0x0200 knows of no such reports */
static void say_why(void)
{
#if MYRKOSTI_VERSION >= 0x0202
    uint32_t *out = lend(4 * sizeof *out);
    for (uint32_t port = 1; port <= PORTS; port++) {
        IS(myrkosti_why(table, size, port, &out[0], &out[1], &out[2]), MYRKOSTI_DONE);
        IS(out[0], port == HEARD ? MYRKOSTI_CARRIES : MYRKOSTI_LINK_DOWN);
        IS(out[1] | out[2], 0);
        IS(myrkosti_apart(table, size, HEARD, port, &out[3]), MYRKOSTI_DONE);
        IS((out[3] & MYRKOSTI_SECOND_PARTNER_INDIVIDUAL) != 0, port != HEARD);
    }
    IS(myrkosti_why(table, MYRKOSTI_TABLE(PORTS), HEARD, &out[0], &out[1], &out[2]), MYRKOSTI_TABLE_WRONG);
    free(out);
#endif
}

int main(int words, char **word)
{
    const struct myrkosti_system us = myrkosti_usual_system(ADDRESS);
    const struct myrkosti_port_settings settings = myrkosti_usual_settings(ADDRESS, 0x1122);
    size = myrkosti_table_size(PORTS);
    longer = (size - MYRKOSTI_HEADER) / PORTS;
    IS(longer, MYRKOSTI_RECORD + LONGER);
    IS(myrkosti_version(), LINKED);
    IS(myrkosti_fits(), true);
    table = lend(size);
    counters = lend(sizeof *counters);
    memset(counters, 0, sizeof *counters);
    IS(myrkosti_start_with(table, MYRKOSTI_TABLE(PORTS), PORTS, &us, &settings), MYRKOSTI_TABLE_WRONG);
    IS(myrkosti_start_with(table, size, PORTS, &us, &settings), MYRKOSTI_DONE);
    look_at_the_whole();
    carry();
    move();
    say_why();
    if (words > 1 && strcmp(word[1], "short") == 0) {
        uint8_t *record = lend(MYRKOSTI_RECORD - 1);
        myrkosti_port(table, size, 1, record, MYRKOSTI_RECORD);
        free(record);
    }
    free(table);
    free(counters);
    return finish("a longer record");
}
