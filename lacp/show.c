#include "show.h"

#include "clock.h"

enum { CHANGES_A_TICK = 8 }; /* more are told together, with the next tick */

static void tell(struct show *show, const struct driver *d, enum because because)
{
    if (d->options->is_json)
        show_json(show, d, because);
    else if (show->out->is_terminal)
        show_view(show, d, because);
    else
        show_lines(show, d, because);
    show->told = show->now;
    show->has_told = true;
}

static bool is_time_for_all(struct show *show, const struct driver *d)
{
    if (d->options->every == 0 || now() - show->told_whole < d->options->every)
        return false;
    show->told_whole = now();
    return true;
}

/* A view moves with every tick; otherwise only what is new is told. */
void show_turn(struct show *show, const struct driver *d, bool has_ticked, bool something_happened)
{
    const bool is_live = show->out->is_terminal && !d->options->is_json;
    if (has_ticked)
        show->told_since_tick = 0;
    if (!something_happened)
        return;
    state_read(&show->now, d, &show->told);
    const bool is_new = !show->has_told || state_differs(&show->now, &show->told, d->count);
    const bool is_whole = has_ticked && is_time_for_all(show, d);
    if (is_new && (has_ticked || show->told_since_tick < CHANGES_A_TICK)) {
        show->told_since_tick++;
        tell(show, d, show->has_told ? BECAUSE_CHANGE : BECAUSE_START);
    } else if (is_whole || (is_live && has_ticked)) {
        tell(show, d, BECAUSE_EVERY);
    }
}

void show_end(struct show *show, const struct driver *d)
{
    state_read(&show->now, d, &show->told);
    tell(show, d, BECAUSE_END);
    out_finish(show->out);
}
