/* A port: an interface by its name, its sockets, and what only who hears and sends knows of it. */
#ifndef LACP_PORT_H
#define LACP_PORT_H

#include <stdbool.h>
#include <stdint.h>

#include "links.h"
#include "myrkosti.h"

enum { RESPONSES_A_SECOND = 5, SECONDS_WATCHED = 10 };

struct port {
    const char *name;
    uint16_t key;

    struct link link;
    bool is_listed;    /* in the list of interfaces that the kernel is giving */
    int lacp, traffic; /* sockets, -1 where there is none */
    int open_trouble;  /* errno, if the interface is there and has no socket */

    int64_t heard;                  /* when the last LACPDU came, now(); 0 if none did */
    uint8_t lacpdu[MYRKOSTI_FRAME]; /* that LACPDU */
    uint32_t changes[SECONDS_WATCHED]; /* how often it came from another partner than the one before, in each of the last seconds */
    uint64_t lost;                  /* frames that found the queue full */
    uint32_t lost_lately[SECONDS_WATCHED];
    uint64_t failed_sends;          /* LACPDUs that did not go at the first try */
    int send_trouble;               /* errno of the last send that failed */
    uint64_t withheld;              /* Responses that would have been more than five in a second */
    uint32_t withheld_lately[SECONDS_WATCHED];
    int64_t responded[RESPONSES_A_SECOND]; /* when the last Responses went, the oldest at `oldest` */
    unsigned oldest;
};

/* octets of an LACPDU (43.4.2) at which what it says of its sender and of us begins */
enum { LACPDU_ACTOR = 18, LACPDU_PARTNER = 38 };

static inline uint32_t bit_of(uint32_t port)
{
    return UINT32_C(1) << (port - 1);
}

static inline uint32_t lately(const uint32_t seconds[SECONDS_WATCHED])
{
    uint32_t sum = 0;
    for (int i = 0; i < SECONDS_WATCHED; i++)
        sum += seconds[i];
    return sum;
}

#endif
