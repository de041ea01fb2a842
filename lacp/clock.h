/* Time in nanoseconds: one clock for the loop, which also counts while the machine sleeps, and one for people. */
#ifndef LACP_CLOCK_H
#define LACP_CLOCK_H

#include <stdint.h>
#include <time.h>

#define MILLISECOND INT64_C(1000000)
#define SECOND (1000 * MILLISECOND)
#define TICK (100 * MILLISECOND)

static inline int64_t clock_ns(clockid_t clock)
{
    struct timespec t;
    clock_gettime(clock, &t);
    return t.tv_sec * SECOND + t.tv_nsec;
}

/* since the machine was started */
static inline int64_t now(void)
{
    return clock_ns(CLOCK_BOOTTIME);
}

/* since 1970 */
static inline int64_t wall(void)
{
    return clock_ns(CLOCK_REALTIME);
}

#endif
