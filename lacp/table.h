/*
 * The table, twice: calls work on one copy while the other is in force, so that a program that is killed at any moment leaves a whole one.
 * In a file it outlives the program, with what belongs to it: counters, and frames that were fetched and not yet sent.
 */
#ifndef LACP_TABLE_H
#define LACP_TABLE_H

#include <linux/if.h>
#include <stdatomic.h>
#include <stdbool.h>
#include <stdint.h>

#include "myrkosti.h"
#include "options.h"

struct kept {
    uint8_t table[MYRKOSTI_TABLE(PORTS)]; /* the first octets, as many as the ports need */
    struct myrkosti_counters counters[PORTS + 1];
    uint8_t unsent[PORTS + 1][MYRKOSTI_FRAME]; /* of each port, what was fetched and could not be sent */
    uint32_t waiting;                          /* the ports that have such a frame, bit 0 is port 1 */
    int64_t ticked;                            /* when the last tick was made, now() */
};

struct copies {
    char whose[16]; /* that it is such memory, and of which form */
    uint32_t size;
    uint32_t count; /* ports */
    char names[PORTS][IFNAMSIZ];
    char boot[40];  /* since which start of the machine now() counts */
    _Atomic uint32_t in_force; /* 0 or 1; NONE where there is nothing to go on with */
    struct kept kept[2];
};

enum { NONE = 2 };

struct table {
    struct copies *copies;
    size_t length; /* of the table itself */
};

/* Memory for the ports of the options, in their file if they name one. False if there is none to be had; `trouble` says why. */
bool table_open(struct table *table, const struct options *options, struct text *trouble);

/* Takes memory that another process of ours had. */
void table_take(struct table *table, struct copies *copies, const struct options *options);

/* What the memory holds: nothing, since nobody used it or who did has ended; a table of these very interfaces in force, which the library takes and this
   start of the machine left; or something that is no use. */
enum left { LEFT_NOTHING, LEFT_TABLE, LEFT_NO_USE };
enum left table_left(const struct table *table, const struct options *options);

/* Empties the memory for these interfaces: nothing is in force until the first table_swap. */
void table_clear(struct table *table, const struct options *options);

/* The copy to work on, as the one in force is; then puts it in force. */
struct kept *table_work(struct table *table);
void table_swap(struct table *table);

/* Nothing to go on with: whoever comes next starts anew. */
void table_end(struct table *table);

#endif
