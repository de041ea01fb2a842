/* What the program may do: once its files and sockets are open, no more than open sockets on interfaces that come back. */
#ifndef LACP_RIGHTS_H
#define LACP_RIGHTS_H

/* Gives up every right but CAP_NET_RAW, for good, and root's name if it has it and may. */
void rights_give_up(void);

#endif
