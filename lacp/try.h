/* `lacp try`: two switches on four links in a namespace of their own, with keys to disturb them. Needs no hardware and no rights. */
#ifndef LACP_TRY_H
#define LACP_TRY_H

#include "options.h"

int try_it(const struct options *options);

#endif
