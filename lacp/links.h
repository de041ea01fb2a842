/* What the kernel says of interfaces: whether they are there, on, have a carrier, and how fast they are. */
#ifndef LACP_LINKS_H
#define LACP_LINKS_H

#include <linux/if.h>
#include <stdbool.h>
#include <stddef.h>
#include <stdint.h>

struct link {
    int index;       /* 0: there is no such interface */
    bool is_enabled; /* somebody switched it on */
    bool is_up;      /* and it has a carrier */
    uint8_t duplex;  /* as linux/ethtool.h has it: half 0, full 1, anything else unknown */
    uint32_t speed;  /* in Mb/s, 0 if unknown */
    int master;      /* the bridge or bond that it is in, 0 for none */
    uint8_t address[6];
};

/* One message of the kernel's. */
enum told { TOLD_OTHER, TOLD_LINK, TOLD_GONE, TOLD_END };

struct notice {
    enum told told;
    bool is_broken; /* interfaces came or went while the kernel made its list, which may lack some */
    char name[IFNAMSIZ];
    struct link link; /* but for duplex and speed */
};

/* The message that begins at `*at`, which goes to the next; false at the end, or where the octets are no whole message. Takes any octets. */
bool links_parse(const uint8_t *octets, size_t length, size_t *at, struct notice *notice);

/* A socket on which the kernel tells of every change; -1 if there is none. */
int links_open(void);

/* Asks the kernel to tell of every interface, and then TOLD_END. */
void links_ask(int socket);

/* Whether an interface has a carrier now; as it was `before`, where nobody says. */
bool links_has_carrier(int any, const char *name, bool before);

/* Duplex and speed of an interface as it is now, unknown where nobody says. `any` is any socket. */
void links_read_line(int any, const char *name, struct link *link);

#endif
