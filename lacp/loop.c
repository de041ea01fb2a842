#include "loop.h"

#include <errno.h>
#include <poll.h>
#include <signal.h>
#include <string.h>

#include "clock.h"

enum { TICKS_A_SECOND = 10, TICKS_OF_LEAVING = 12 }; /* the second: longer than three LACPDUs bar a fourth */

static volatile sig_atomic_t is_ended;
static sigset_t while_waiting; /* signals come while the loop waits, and at no other moment */

static void end(int signal)
{
    (void)signal;
    is_ended = 1;
}

void loop_catch_signals(void)
{
    const int ends[] = {SIGINT, SIGTERM, SIGHUP};
    struct sigaction action = {.sa_handler = end};
    sigset_t blocked;
    sigemptyset(&blocked);
    for (size_t i = 0; i < sizeof ends / sizeof *ends; i++) {
        sigaction(ends[i], &action, NULL);
        sigaddset(&blocked, ends[i]);
    }
    action.sa_handler = SIG_IGN;
    sigaction(SIGPIPE, &action, NULL);
    sigprocmask(SIG_BLOCK, &blocked, &while_waiting);
    for (size_t i = 0; i < sizeof ends / sizeof *ends; i++)
        sigdelset(&while_waiting, ends[i]);
}

/* ---- waiting ---- */

struct waited {
    struct pollfd files[4 + 2 * PORTS];
    struct pollfd *links, *tap, *out, *lacp, *traffic; /* of ports, from 1 */
};

static void wait_for_something(struct waited *w, const struct driver *d, const struct show *show, int64_t until)
{
    const int64_t rest = until - now();
    const struct timespec time = {.tv_sec = rest < 0 ? 0 : rest / SECOND, .tv_nsec = rest < 0 ? 0 : rest % SECOND};
    w->links = &w->files[0];
    w->tap = &w->files[1];
    w->out = &w->files[2];
    w->lacp = &w->files[2];                /* from 1 */
    w->traffic = &w->files[2 + d->count];
    *w->links = (struct pollfd){.fd = d->links, .events = POLLIN};
    *w->tap = (struct pollfd){.fd = d->tap.file, .events = POLLIN};
    *w->out = (struct pollfd){.fd = show->out->length > 0 ? show->out->file : -1, .events = POLLOUT};
    for (uint32_t i = 1; i <= d->count; i++) {
        w->lacp[i] = (struct pollfd){.fd = d->ports[i].lacp, .events = POLLIN};
        w->traffic[i] = (struct pollfd){.fd = d->ports[i].traffic, .events = POLLIN};
    }
    if (ppoll(w->files, 3 + 2 * d->count, &time, &while_waiting) <= 0)
        for (size_t i = 0; i < 3 + 2 * d->count; i++)
            w->files[i].revents = 0;
}

/* ---- a turn ---- */

static bool tick_if_due(struct driver *d)
{
    const int64_t late = now() - (d->kept->ticked + TICK); /* never sooner than a tick after the one before, however late that was */
    if (late < 0)
        return false;
    driver_tick(d, late);
    if (d->ticks % TICKS_A_SECOND == 0)
        driver_look_at_links(d);
    return true;
}

static void carry_traffic(struct driver *d, const struct waited *w)
{
    for (uint32_t i = 1; i <= d->count; i++)
        if (w->traffic[i].revents != 0 && d->ports[i].traffic >= 0)
            tap_take_in(&d->tap, d->ports, i);
    if (w->tap->revents != 0)
        tap_send_out(&d->tap, d->ports, d->count);
}

static void turn(struct driver *d, struct show *show, const struct waited *w)
{
    driver_begin_turn(d);
    const bool has_ticked = tick_if_due(d);
    if (w->links->revents != 0)
        driver_hear_links(d);
    for (uint32_t i = 1; i <= d->count; i++)
        if (w->lacp[i].revents != 0 && d->ports[i].lacp >= 0)
            driver_hear(d, i);
    const bool something_happened = d->something_happened;
    driver_program_and_send(d);
    driver_end_turn(d);
    carry_traffic(d, w);
    if (w->out->revents != 0)
        out_flush(show->out);
    show_turn(show, d, has_ticked, something_happened);
}

static bool is_reached(const struct driver *d, const struct show *show)
{
    return d->options->want != 0 && show->now.carrying >= d->options->want;
}

/* Nobody reads what is shown any more, or what was to be carried has nowhere to go. */
static bool is_in_vain(const struct driver *d, const struct show *show)
{
    return show->out->is_closed || (d->options->tap != NULL && d->tap.file < 0);
}

bool loop_run(struct driver *d, struct show *show)
{
    const int64_t end = d->options->ends_after == 0 ? INT64_MAX : now() + d->options->ends_after;
    struct waited w = {0};
    show_turn(show, d, true, true);
    while (!is_ended && now() < end && !is_reached(d, show) && !is_in_vain(d, show)) {
        const int64_t tick = d->kept->ticked + TICK;
        wait_for_something(&w, d, show, tick < end ? tick : end);
        turn(d, show, &w);
    }
    show_end(show, d);
    return show->now.carrying >= d->options->want;
}

void loop_leave(struct driver *d)
{
    driver_leave(d);
    for (int ticks = 0; ticks < TICKS_OF_LEAVING && driver_has_more_to_say(d); ticks++) {
        const int64_t rest = d->kept->ticked + TICK - now();
        const struct timespec time = {.tv_nsec = rest < 0 ? 0 : rest};
        nanosleep(&time, NULL);
        driver_begin_turn(d);
        driver_tick(d, 0);
        driver_program_and_send(d);
        driver_end_turn(d);
    }
    table_end(&d->table);
}
