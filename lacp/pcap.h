/* A capture of all that is heard and sent, as pcapng: an interface block for each port, a direction in each frame. */
#ifndef LACP_PCAP_H
#define LACP_PCAP_H

#include <stdbool.h>
#include <stddef.h>
#include <stdint.h>
#include <stdio.h>

enum direction { INBOUND = 1, OUTBOUND = 2 };

struct pcap {
    FILE *file; /* NULL if nothing is captured */
};

/* Writes what stands before the first frame. False if that fails. */
bool pcap_begin(struct pcap *pcap, FILE *file, const char *const *names, unsigned count);

/* A frame of a port, from 1, at nanoseconds since 1970. After the first that cannot be written no more are. */
void pcap_frame(struct pcap *pcap, uint32_t port, enum direction direction, int64_t time, const uint8_t *frame, size_t length);

/* Hands over what was written. */
void pcap_flush(struct pcap *pcap);

#endif
