/* Sentences for people: why a port does not carry, and what to look at though it does. */
#ifndef LACP_WORDS_H
#define LACP_WORDS_H

#include <stdint.h>

#include "state.h"
#include "text.h"

/* Why a port does not carry, and its warnings, as one sentence without a full stop; nothing if it carries and all is well. */
void words_why(struct text *text, const struct state *state, const struct driver *driver, uint32_t port);

/* '10G full', 'no link' */
void words_link(struct text *text, const struct port_facts *facts);

/* '1 and 2', '1, 2 and 5' */
void words_set(struct text *text, uint32_t set);

void words_address(struct text *text, const uint8_t address[6]);

/* '14:31:02', of nanoseconds since 1970 */
void words_time(struct text *text, int64_t time);

#endif
