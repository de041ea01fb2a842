/* What the command line says. */
#ifndef LACP_OPTIONS_H
#define LACP_OPTIONS_H

#include <stdbool.h>
#include <stdint.h>

#include "myrkosti.h"
#include "text.h"

enum { PORTS = MYRKOSTI_PORTS };

enum asked { ASKED_RUN, ASKED_TRY, ASKED_HELP, ASKED_VERSION, ASKED_WRONG };

struct options {
    const char *interfaces[PORTS]; /* by name, of each port from the first */
    unsigned count;
    uint16_t keys[PORTS];
    const char *own_keys[PORTS]; /* IF=KEY, as they were given */
    unsigned own_keys_count;
    bool has_system;
    uint8_t system[6];
    uint16_t system_priority;
    bool is_active, is_short, is_alone;
    bool listens;       /* sends nothing */
    bool is_json;
    int64_t every;      /* nanoseconds from one whole state to the next, 0 for none */
    int64_t ends_after; /* nanoseconds, 0 for never */
    unsigned want;      /* ends when so many links carry, 0 for never */
    const char *tap, *pcap, *table;
};

/* Reads the command line, which has to outlive the options. With ASKED_WRONG `trouble` says what is wrong with it. */
enum asked options_read(struct options *options, int count, const char *const *words, struct text *trouble);

extern const char options_help[];

#endif
