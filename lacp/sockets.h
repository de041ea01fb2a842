/* Sockets on interfaces: one that hears LACPDUs and Markers and nothing else, and one for the traffic of a trunk. */
#ifndef LACP_SOCKETS_H
#define LACP_SOCKETS_H

#include <stdbool.h>
#include <stddef.h>
#include <stdint.h>
#include <sys/types.h>

/* Hears frames to 01-80-C2-00-00-02 of type 88-09 without a VLAN tag on this interface; -1 with errno if there is none to be had. */
int socket_for_lacp(int interface);

/* Hears nothing until it is let to; then whatever a bridge forwards. */
int socket_for_traffic(int interface);
void socket_let_hear(int socket, bool lets);

/* The next frame as it came, its VLAN tag in its place; 0 if there is none now. Of a longer frame than `size` the first octets. */
size_t socket_receive(int socket, uint8_t *frame, size_t size);

/* Whether the whole frame went; errno says why not. */
bool socket_send(int socket, const uint8_t *frame, size_t length);

/* Frames that came since it was asked last and found the queue full. */
uint32_t socket_lost(int socket);

#endif
