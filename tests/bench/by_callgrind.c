#include "count.h"

#include <valgrind/callgrind.h>

void count_begins(void)
{
    CALLGRIND_ZERO_STATS;
}

void count_ends(const char *label)
{
    CALLGRIND_DUMP_STATS_AT(label);
}
