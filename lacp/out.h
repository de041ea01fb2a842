/* The standard output, which never holds the loop up: what nobody takes waits, and what does not fit is left out and counted. */
#ifndef LACP_OUT_H
#define LACP_OUT_H

#include <stdbool.h>
#include <stddef.h>
#include <stdint.h>

struct out {
    int file;
    bool is_terminal;
    bool is_closed; /* nobody reads any more */
    char waiting[1 << 18];
    size_t length;
    uint64_t lost; /* pieces that were left out */
};

void out_open(struct out *out);

/* Writes the octets, all of them or none; at once as far as they are taken. */
void out_write(struct out *out, const char *octets, size_t length);

/* Writes what waits, as far as it is taken now. */
void out_flush(struct out *out);

/* The same, and waits for it, a second at most. */
void out_finish(struct out *out);

#endif
