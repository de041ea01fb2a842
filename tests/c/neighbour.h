/* The frames of a neighbour, written by the names of include/myrkosti.h. */
#ifndef NEIGHBOUR_H
#define NEIGHBOUR_H

#include "myrkosti.h"

#include <string.h>

enum {
    TYPE_AT = 12,    /* of a frame */
    SUBTYPE_AT = 14, /* of a Slow Protocols frame */
    ACTOR_AT = 18,   /* of an LACPDU: the block of who sends it, and what it heard */
    PARTNER_AT = 38,
    REQUESTER_AT = 18, /* of a Marker or a Response: port, system and transaction of who sent the Marker, twelve octets */
    REQUESTER_END = 30
};

/* what port `port` of `us` says of itself, by its record */
static inline void put_ours(uint8_t block[MYRKOSTI_BLOCK], const struct myrkosti_system *us, uint16_t port, const uint8_t *record)
{
    myrkosti_put_number(block + MYRKOSTI_BLOCK_SYSTEM_PRIORITY, us->priority);
    memcpy(block + MYRKOSTI_BLOCK_SYSTEM, us->address, 6);
    memcpy(block + MYRKOSTI_BLOCK_KEY, record + MYRKOSTI_AT_KEY, 2);
    memcpy(block + MYRKOSTI_BLOCK_PORT_PRIORITY, record + MYRKOSTI_AT_PRIORITY, 2);
    myrkosti_put_number(block + MYRKOSTI_BLOCK_PORT, port);
    block[MYRKOSTI_BLOCK_STATE] = record[MYRKOSTI_AT_ACTOR_STATE];
}

/* a Slow Protocols frame from 02-00-00-00-00-05 with nothing in it */
static inline void put_frame(uint8_t frame[MYRKOSTI_FRAME], uint8_t subtype)
{
    static const uint8_t header[14] = {0x01, 0x80, 0xc2, 0, 0, 2, 2, 0, 0, 0, 0, 5, 0x88, 0x09};
    memset(frame, 0, MYRKOSTI_FRAME);
    memcpy(frame, header, sizeof header);
    frame[SUBTYPE_AT] = subtype;
    frame[SUBTYPE_AT + 1] = 1;
}

/* an LACPDU of somebody who says `actor` of itself and heard `partner` */
static inline void put_lacpdu(uint8_t frame[MYRKOSTI_FRAME], const uint8_t actor[MYRKOSTI_BLOCK], const uint8_t partner[MYRKOSTI_BLOCK])
{
    put_frame(frame, 1);
    frame[16] = 1;
    frame[17] = 20;
    memcpy(frame + ACTOR_AT, actor, MYRKOSTI_BLOCK);
    frame[36] = 2;
    frame[37] = 20;
    memcpy(frame + PARTNER_AT, partner, MYRKOSTI_BLOCK);
    frame[56] = 3;
    frame[57] = 16;
}

/* a Marker (type 1) or a Response (2) */
static inline void put_marker(uint8_t frame[MYRKOSTI_FRAME], uint8_t type)
{
    put_frame(frame, 2);
    frame[16] = type;
    frame[17] = 16;
    frame[29] = 7; /* transaction */
}

/* the Response to a Marker of this port of the system with this address */
static inline void put_response(uint8_t frame[MYRKOSTI_FRAME], uint16_t port, const uint8_t system[6], uint32_t transaction)
{
    put_marker(frame, 2);
    myrkosti_put_number(frame + REQUESTER_AT, port);
    memcpy(frame + REQUESTER_AT + 2, system, 6);
    for (unsigned i = 0; i < 4; i++)
        frame[REQUESTER_AT + 8 + i] = transaction >> (24 - 8 * i) & 0xff;
}

#endif
