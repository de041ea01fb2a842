/* What is shown, and when: a live view in a terminal, changes as lines elsewhere, or JSON. */
#ifndef LACP_SHOW_H
#define LACP_SHOW_H

#include "out.h"
#include "state.h"

struct show {
    struct out *out;
    const char *name;    /* which of several switches, "" for the only one */
    unsigned row, rows;  /* of the terminal that the view may use, from 0; 0 rows for all */
    struct state told;   /* what was shown last */
    struct state now;
    bool has_told;
    unsigned told_since_tick;
    int64_t told_whole;  /* when JSON was last written because of --every, now() */
};

/* Reads the state and shows what is new; `has_ticked` at the end of a turn with a tick, `something_happened` if the table may have changed. */
void show_turn(struct show *show, const struct driver *driver, bool has_ticked, bool something_happened);

/* The last state. */
void show_end(struct show *show, const struct driver *driver);

/* ---- each way, in a file of its own ---- */

enum because { BECAUSE_START, BECAUSE_CHANGE, BECAUSE_EVERY, BECAUSE_END };

void show_json(struct show *show, const struct driver *driver, enum because because);
void show_lines(struct show *show, const struct driver *driver, enum because because);
void show_view(struct show *show, const struct driver *driver, enum because because);

#endif
