/* Counters that are lent and never read, as by a driver without a port page. */
#ifndef UNREAD_H
#define UNREAD_H

#include "myrkosti.h"

static struct myrkosti_counters unread;

#endif
