/* One switch, from its start to its end. */
#ifndef LACP_RUN_H
#define LACP_RUN_H

#include "options.h"
#include "table.h"

enum { EXIT_DONE = 0, EXIT_TOO_FEW = 1, EXIT_CANNOT = 2, EXIT_RIGHTS = 3 };

struct place {
    const char *name;      /* "" for the only one */
    unsigned row, rows;    /* of the terminal, 0 rows for all */
    struct copies *copies; /* memory for the table, NULL if the options say where it is */
};

int run(const struct options *options, const struct place *place);

#endif
