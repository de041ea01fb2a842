/*
 * Myrkosti: the control side of link aggregation (LACP and Marker, IEEE Std 802.3ad-2000, Clause 43) for an access switch.
 *
 * You lend the memory of a table of 1 to 32 ports, tell the library what happens (frames, ticks, link and duplex, settings), send what
 * it writes for you, and read from the reports which ports form one trunk, why a port does not carry, and why two ports are not in one
 * trunk. It keeps no memory of its own, allocates nothing, needs no system, and every call ends. One table is one Aggregation System;
 * different tables may be used at the same time. What a port received and sent is counted in a small record that you keep beside the
 * table. Before you move a conversation to another link, ask for a Marker on the one that it leaves: its Response says that the link
 * has drained.
 *
 * You may pass anything: frames of any length and content, any port number, any setting, any table memory, any numbers in counters. A call
 * answers one of the numbers below, and unless that is MYRKOSTI_DONE, table and outgoing buffer hold what they held before: of what you
 * keep, a refusal moves counters alone. Only this is asked of you: memory that you lend is readable (the table and what is written,
 * writable) for its whole length, nobody else uses it until the call returns, and the areas that you lend to one call do not overlap.
 *
 * Link with target/TARGET/libmyrkosti.a, which `make archive TARGET=..` proves and builds; TARGET is x86_64-linux-gnu, aarch64-linux-gnu,
 * riscv64-linux-gnu or, freestanding, aarch64-none-elf. No archive asks for a symbol but these four, which any compiler may ask for, and which a
 * program without a C library has to have: memcpy, memmove, memset, memcmp. Then read, in this order: examples/loop.c, a driver's loop to copy
 * from; docs/GUIDE-FIRMWARE.md, why it is as it is and what to start with; 'What is left to the chip and the firmware' in
 * docs/CONFORMANCE.md, the table of your duties. docs/RULES.md says what each call does. Each function that is not `static inline` is proved to
 * meet its contract; docs/PROOFS.md says what that is.
 */
#ifndef MYRKOSTI_H
#define MYRKOSTI_H

#include <stdbool.h>
#include <stddef.h>
#include <stdint.h>

#ifdef __cplusplus
extern "C" {
#endif

/* ---- version and sizes ---- */

/*
 * The version of this interface. Its high octet changes where a program that was compiled with the header of before no longer fits; its low octet
 * where something is added: a call, an answer, fields behind the others of a record. Ask myrkosti_fits at start.
 */
#define MYRKOSTI_VERSION 0x0202

#define MYRKOSTI_PORTS 32  /* the most ports that a table has */
#define MYRKOSTI_HEADER 11 /* octets before the first record of a table */
#define MYRKOSTI_RECORD 78 /* octets of a port's record; later versions append fields and move none */
#define MYRKOSTI_ASKED 7   /* the last of them, of the Marker that was asked for; a table of a version before 0x0201 ends without any port's */
#define MYRKOSTI_FRAME 124 /* octets of every frame that the library writes, without FCS; an outgoing buffer has at least as many */
#define MYRKOSTI_BLOCK 15  /* octets of an information block */

#define MYRKOSTI_LONGEST_WAIT 600 /* the most ticks for which a Marker is awaited, a minute; the least is 1 */

/* The size of a table whose port count is a constant, of this version. myrkosti_table_size gives that of the library which is linked. */
#define MYRKOSTI_TABLE(ports) (MYRKOSTI_HEADER + MYRKOSTI_RECORD * (ports))

/* The same of a table of the old form, which has no churn fields; myrkosti_old_table_size gives it too. */
#define MYRKOSTI_OLD_RECORD 64 /* octets 0 to 56 of a record, and 71 to 77 */
#define MYRKOSTI_OLD_TABLE(ports) (MYRKOSTI_HEADER + MYRKOSTI_OLD_RECORD * (ports))

/* ---- answers ---- */

enum {
    MYRKOSTI_DONE = 0,            /* done */
    MYRKOSTI_TABLE_WRONG = 1,     /* the memory is no table: its size or port count is wrong, or a field is out of range (forward and back: below) */
    MYRKOSTI_NO_SUCH_PORT = 2,    /* no port, or no aggregator, has this number; they count from 1 */
    MYRKOSTI_BUFFER_SHORT = 3,    /* `out` is too short for a frame (receive, fetch and ask) */
    MYRKOSTI_DEFAULT_WRONG = 4,   /* in the default partner block Collecting and Synchronization differ (start and settings); the time to wait is not
                                     1 to 600 ticks (ask) */
    MYRKOSTI_LACP_OFF = 5,        /* an LACPDU without fault, but the link is down or the duplex half */
    MYRKOSTI_FOREIGN = 6,         /* a frame under 14 octets, or not to 01-80-C2-00-00-02: not for this part */
    MYRKOSTI_UNKNOWN = 7,         /* to that address, but of another type than 88-09, or a subtype from 3 to 10: for others */
    MYRKOSTI_ILLEGAL = 8,         /* a Slow Protocols frame that breaks the rules of its subtype */
    MYRKOSTI_NOT_COLLECTING = 9,  /* a Marker on a port that neither collects nor distributes */
    MYRKOSTI_NOTHING_TO_SEND = 10, /* fetch: nothing is due, the link is down or the duplex half */
    MYRKOSTI_TOO_MANY_SENDS = 11, /* fetch: one is due, but three LACPDUs went with fewer than eleven ticks after the first; ask after the next tick */
    MYRKOSTI_RESPONSE = 12,       /* a Marker Response that nobody awaits: the port has asked for no Marker, or not for this one, or waits no longer */
    MYRKOSTI_NOT_DISTRIBUTING = 13, /* ask: the port does not distribute, so no conversation is left on it to be moved */
    MYRKOSTI_ALREADY_AWAITING = 14 /* ask: the port awaits a Marker's Response; ask when that has ended */
};

/*
 * ---- the record of a port, MYRKOSTI_RECORD octets, as myrkosti_port gives it ----
 *
 * Read it by that call. In the table's memory the record of a port lies in three places: octets 0 to 56 of every port first, port by port, behind the
 * last of them octets 57 to 70 of every port, and behind those octets 71 to 77 (docs/TABLE.md says where). Numbers are high octet first: myrkosti_number
 * reads one of two octets, myrkosti_long_number one of four.
 *
 *    0       receive state
 *    1       periodic state
 *    2       mux state
 *    3       Selected
 *    4       aggregator held, from 1
 *    5       NTT: 1 if an LACPDU is due
 *    6       link: 1 up
 *    7       duplex: 1 full
 *    8       Actor_Oper_Port_State (bits below); bits 0 to 2 are the settings' own Activity, Timeout, Aggregation
 *    9-10    current-while timer, in ticks
 *   11-12    periodic timer, in ticks
 *   13       wait timer, in ticks
 *   14-16    ages in ticks, 0 to 10, of the sends that are remembered, newest first; 255 where there is none
 *   17-22    own address
 *   23-24    key
 *   25-26    port priority
 *   27-41    default partner block
 *   42-56    partner information in force, a block
 *   57       churn state of the actor: whether our own Synchronization settles
 *   58       churn state of the partner: whether its Synchronization does
 *   59-60    churn timer of the actor, in ticks: how long it has left
 *   61-62    churn timer of the partner
 *   63-66    churn count of the actor: how often it has churned since the start, or since the table was moved forward; after 4294967295 comes 0
 *   67-70    churn count of the partner
 *   71       what came of the Marker that was asked for last; it stays until the next one
 *   72-73    how long that one is still awaited, in ticks; 0 unless it is
 *   74-77    the transaction that the next Marker will have: 0 after a start, one more with each that was asked for; after 4294967295 comes 0
 */
enum {
    MYRKOSTI_AT_RECEIVE = 0,
    MYRKOSTI_AT_PERIODIC = 1,
    MYRKOSTI_AT_MUX = 2,
    MYRKOSTI_AT_SELECTED = 3,
    MYRKOSTI_AT_AGGREGATOR = 4,
    MYRKOSTI_AT_NTT = 5,
    MYRKOSTI_AT_LINK = 6,
    MYRKOSTI_AT_DUPLEX = 7,
    MYRKOSTI_AT_ACTOR_STATE = 8,
    MYRKOSTI_AT_CURRENT_WHILE = 9,
    MYRKOSTI_AT_PERIODIC_TIMER = 11,
    MYRKOSTI_AT_WAIT_TIMER = 13,
    MYRKOSTI_AT_AGES = 14,
    MYRKOSTI_AT_ADDRESS = 17,
    MYRKOSTI_AT_KEY = 23,
    MYRKOSTI_AT_PRIORITY = 25,
    MYRKOSTI_AT_DEFAULT = 27,
    MYRKOSTI_AT_PARTNER = 42,
    MYRKOSTI_AT_ACTOR_CHURN = 57,
    MYRKOSTI_AT_PARTNER_CHURN = 58,
    MYRKOSTI_AT_ACTOR_CHURN_TIMER = 59,
    MYRKOSTI_AT_PARTNER_CHURN_TIMER = 61,
    MYRKOSTI_AT_ACTOR_CHURN_COUNT = 63,
    MYRKOSTI_AT_PARTNER_CHURN_COUNT = 67,
    MYRKOSTI_AT_MARKER = 71,
    MYRKOSTI_AT_MARKER_TIMER = 72,
    MYRKOSTI_AT_MARKER_NUMBER = 74
};

/* the octets of an information block */
enum {
    MYRKOSTI_BLOCK_SYSTEM_PRIORITY = 0, /* two octets */
    MYRKOSTI_BLOCK_SYSTEM = 2,          /* six */
    MYRKOSTI_BLOCK_KEY = 8,             /* two */
    MYRKOSTI_BLOCK_PORT_PRIORITY = 10,  /* two */
    MYRKOSTI_BLOCK_PORT = 12,           /* two */
    MYRKOSTI_BLOCK_STATE = 14           /* one, bits below */
};

/* the bits of a state octet */
enum {
    MYRKOSTI_ACTIVITY = 0x01,
    MYRKOSTI_TIMEOUT = 0x02, /* 1 is short */
    MYRKOSTI_AGGREGATION = 0x04,
    MYRKOSTI_SYNCHRONIZATION = 0x08,
    MYRKOSTI_COLLECTING = 0x10,
    MYRKOSTI_DISTRIBUTING = 0x20,
    MYRKOSTI_DEFAULTED = 0x40,
    MYRKOSTI_EXPIRED = 0x80
};

/* receive states. Between calls no port is in INITIALIZE; beside a refusal the zeros of a record say so */
enum {
    MYRKOSTI_RECEIVE_INITIALIZE = 0,
    MYRKOSTI_RECEIVE_PORT_DISABLED = 1,
    MYRKOSTI_RECEIVE_EXPIRED = 2,
    MYRKOSTI_RECEIVE_LACP_DISABLED = 3,
    MYRKOSTI_RECEIVE_DEFAULTED = 4,
    MYRKOSTI_RECEIVE_CURRENT = 5
};

/* periodic states; between calls no port is in PERIODIC_TX */
enum {
    MYRKOSTI_PERIODIC_NO_PERIODIC = 0,
    MYRKOSTI_PERIODIC_FAST = 1,
    MYRKOSTI_PERIODIC_SLOW = 2,
    MYRKOSTI_PERIODIC_TX = 3
};

/* mux states; between calls no port is in DETACHED */
enum {
    MYRKOSTI_MUX_DETACHED = 0,
    MYRKOSTI_MUX_WAITING = 1,
    MYRKOSTI_MUX_ATTACHED = 2,
    MYRKOSTI_MUX_COLLECTING = 3,
    MYRKOSTI_MUX_DISTRIBUTING = 4
};

/* Selected */
enum {
    MYRKOSTI_UNSELECTED = 0,
    MYRKOSTI_SELECTED = 1
};

/*
 * Churn states, one of the actor and one of the partner (43.4.17). A link that is up should bring both into Synchronization, and one that has not done so
 * for 600 ticks, a minute, churns: it does not settle by itself, and somebody should look. What usually causes it: docs/GUIDE-SUPPORT.md.
 * Beside a refusal the zeros of a record say NO_CHURN, with nothing counted.
 */
enum {
    MYRKOSTI_NO_CHURN = 0,      /* in Synchronization, and the link is up */
    MYRKOSTI_CHURN_MONITOR = 1, /* not in Synchronization, for less than a minute so far; or the link is down, where the minute has not begun */
    MYRKOSTI_CHURN = 2          /* not in Synchronization for a minute or longer */
};

/*
 * What came of the Marker that was asked for last on a port. One that is awaited comes to one of three ends, at its last tick at the latest, unless a start
 * forgets it. Beside a refusal the zeros of a record say that none was asked for.
 */
enum {
    MYRKOSTI_MARKER_NONE = 0,      /* none was asked for since the start */
    MYRKOSTI_MARKER_AWAITING = 1,  /* its Response is awaited */
    MYRKOSTI_MARKER_ANSWERED = 2,  /* the Response came: what was sent on the link before the Marker has arrived */
    MYRKOSTI_MARKER_TIMED_OUT = 3, /* none came in the time given */
    MYRKOSTI_MARKER_CANCELLED = 4  /* the link fell first, or the duplex changed while it was up */
};

/*
 * ---- the counters of a port (30.7.3) ----
 *
 * Seven uint32_t, one behind the other without padding. Keep a record for each port, outside the table, and lend it to myrkosti_receive and myrkosti_fetch
 * on that port, which count where it stands. Nothing else moves it, no start and no move of a table either. It may hold any numbers: zero it when you begin
 * the port's page. After 4294967295 comes 0, and no other counter moves for that. A driver that keeps none lends one record for all ports and never reads it;
 * a null pointer is not allowed. What each counter tells of a link: docs/GUIDE-SUPPORT.md.
 */
struct myrkosti_counters {
    uint32_t lacpdus_received;          /* LACPDUs: receive answered 0 to one, or 5 */
    uint32_t markers_received;          /* Markers: answered 0 to one, or 9 */
    uint32_t marker_responses_received; /* Marker Responses: answered 0 to one, or 12 */
    uint32_t unknown_received;          /* answered 7 */
    uint32_t illegal_received;          /* answered 8 */
    uint32_t lacpdus_sent;              /* fetch answered 0 */
    uint32_t marker_responses_sent;     /* receive answered 0 to a Marker */
};

/* ---- why a port does not carry, and why two are apart ---- */

/*
 * Causes, as myrkosti_why gives them: the first that applies, in the order of this list from 1 on. A port carries at 1 and 2, and at no other number.
 * A later version may add a cause, with a number of its own, and none changes its meaning. So take a number that you do not know for 'does not carry', and
 * ask myrkosti_is_carrying. What the desk and the crew do about each: docs/GUIDE-SUPPORT.md.
 */
enum {
    MYRKOSTI_NO_CAUSE = 0,           /* none: beside a refusal, and in memory that no start and calls made; a table that they made never gives it */
    MYRKOSTI_CARRIES = 1,            /* the port distributes, by what its partner says of itself */
    MYRKOSTI_CARRIES_BY_DEFAULT = 2, /* it distributes on its settings alone: LACP is off (half duplex), or the partner is the default block (DEFAULTED) */
    MYRKOSTI_LINK_DOWN = 3,          /* the link is down */
    MYRKOSTI_HALF_DUPLEX = 4,        /* the link is up at half duplex, so LACP is off */
    MYRKOSTI_IS_DEFAULTED = 5,       /* receive state DEFAULTED: no partner was heard since the start or since the link came up, or it was given up */
    MYRKOSTI_IS_EXPIRED = 6,         /* receive state EXPIRED: the partner is silent; also while nothing was heard yet, three seconds after the link came up */
    MYRKOSTI_WAITS = 7,              /* mux state WAITING, and the port's own wait timer runs: `ticks` is what it has left */
    MYRKOSTI_HELD_BACK = 8,          /* WAITING with its own timer at 0, and a port that waits for the same aggregator has one that runs: `holder`, `ticks` */
    MYRKOSTI_OUT_OF_SYNC = 9,        /* the partner's Synchronization, as recorded, is clear */
    MYRKOSTI_PARTNER_NOT_COLLECTING = 10 /* the partner is in sync, and its Collecting is clear (MYRKOSTI_NOT_COLLECTING is an answer) */
};

/* Whether a port with this cause carries; false of a number that this header does not know. */
static inline bool myrkosti_is_carrying(uint32_t cause)
{
    return cause == MYRKOSTI_CARRIES || cause == MYRKOSTI_CARRIES_BY_DEFAULT;
}

/*
 * Reasons, as myrkosti_apart gives them: a set, a bit for each that holds. They are what the selection rule compares (R10), each for itself, also where
 * another holds already. A later version may add a bit: a set that is not 0 says 'apart', whatever its bits.
 */
enum {
    MYRKOSTI_FIRST_INDIVIDUAL = 0x001,           /* the first port's own Aggregation is clear */
    MYRKOSTI_FIRST_PARTNER_INDIVIDUAL = 0x002,   /* the Aggregation of the first port's partner is clear */
    MYRKOSTI_FIRST_LOOPED = 0x004,               /* the first port's partner is our own system, priority and address */
    MYRKOSTI_SECOND_INDIVIDUAL = 0x008,          /* the second port's own Aggregation is clear */
    MYRKOSTI_SECOND_PARTNER_INDIVIDUAL = 0x010,  /* the Aggregation of the second port's partner is clear */
    MYRKOSTI_SECOND_LOOPED = 0x020,              /* the second port's partner is our own system, priority and address */
    MYRKOSTI_KEYS_DIFFER = 0x040,                /* their own keys differ */
    MYRKOSTI_PARTNER_PRIORITIES_DIFFER = 0x080,  /* the system priorities of their partners differ */
    MYRKOSTI_PARTNER_SYSTEMS_DIFFER = 0x100,     /* the system addresses of their partners differ */
    MYRKOSTI_PARTNER_KEYS_DIFFER = 0x200         /* the keys of their partners differ */
};

/* ---- calls ---- */

/* The version of the library that is linked. */
uint32_t myrkosti_version(void);

/* The octets that the memory of a table of `ports` ports has, no more and no less; 0 for a count outside 1 to 32. */
uint32_t myrkosti_table_size(uint32_t ports);

/*
 * Starts a table. Call it once before everything else, and again to begin anew; what the memory held before does not matter. Links are
 * down and duplexes full then: tell the library by myrkosti_line of each port that is otherwise. Every port begins with the settings given
 * here, so all have one address: give each its own by myrkosti_settings before its link comes up. `system` and `system_priority` name this
 * switch to its neighbours and must be its own; `collector_max_delay` counts tens of microseconds. What was sent before is forgotten: after a
 * further start let a second pass before you tell of the first link that is up, or more LACPDUs could go than three a second. Markers that were
 * awaited are forgotten too.
 * Answers 0, 1 (memory size or port count) or 4.
 */
uint32_t myrkosti_start(uint8_t *table, size_t table_len, uint32_t ports,
                        uint16_t system_priority, const uint8_t system[6], uint16_t collector_max_delay,
                        const uint8_t address[6], uint16_t key, uint16_t port_priority,
                        bool activity, bool timeout, bool aggregation, const uint8_t partner[MYRKOSTI_BLOCK]);

/*
 * A frame came in on a port: hand over every frame to 01-80-C2-00-00-02, without FCS, as it came. `sent` is written at every call: 124 if
 * a Marker was answered, and then `out` begins with the Response, which you send on that port; otherwise 0. An LACPDU leaves `out` as it is, and so
 * does the Response that the port awaits, which is answered 0 and ends the wait (myrkosti_ask).
 * The frame is counted, also beside a refusal: 1, 2, 3 and 6 alone count nowhere. After an answer 0, other ports may have changed too: read the
 * reports that you follow. Answers 0 to 3, 5 to 9 and 12.
 */
uint32_t myrkosti_receive(uint8_t *table, size_t table_len, uint32_t port,
                          const uint8_t *frame, size_t frame_len, uint8_t *out, size_t out_len, uint32_t *sent,
                          struct myrkosti_counters *counters);

/*
 * A tenth of a second has passed. Call it ten times a second, for all ports at once, and no sooner than 100 ms after the tick before. Do not make
 * up for late ticks in a burst: it would shorten every timer, and more LACPDUs could go than three a second. Answers 0 or 1.
 */
uint32_t myrkosti_tick(uint8_t *table, size_t table_len);

/*
 * Link and duplex of a port as they are now: `up` false is down, `full` false is half. Pass both, as the driver reads them together, whenever
 * either changes. With both as they were the call changes nothing, so you may also repeat what you read. At half duplex LACP is off: nothing is
 * to be fetched, from the moment in which the port comes up. What a change does:
 *
 *   to up, full   LACP is on and waits to hear the partner (EXPIRED), whom it gives up after three seconds of silence
 *   to up, half   LACP is off (LACP_DISABLED): the partner is forgotten for the default block, and the port leaves its trunk
 *   to down       the port carries no longer (PORT_DISABLED) but keeps its partner and its aggregator, whatever the duplex does in the same call
 *
 * Where the link is up before and after, a change of duplex acts as down, then up, within the call. A Marker that the port awaits is cancelled where the
 * link was up and either value changes. Answers 0, 1 or 2.
 */
uint32_t myrkosti_line(uint8_t *table, size_t table_len, uint32_t port, bool up, bool full);

/*
 * A port has these settings from now on. The same ones again change nothing. Another key, port priority or Aggregation takes the port out of its
 * trunk for at least two seconds. A new default block is used the next time that the partner is given up. `timeout` true is short.
 * Answers 0, 1, 2 or 4.
 */
uint32_t myrkosti_settings(uint8_t *table, size_t table_len, uint32_t port,
                           const uint8_t address[6], uint16_t key, uint16_t port_priority,
                           bool activity, bool timeout, bool aggregation, const uint8_t partner[MYRKOSTI_BLOCK]);

/*
 * The next LACPDU of a port. On answer 0 `out` begins with a frame of 124 octets, which you send on that port at once, and it is counted as sent; octets
 * after it are kept.
 * Fetch on each port that myrkosti_due gives; but first let the chip receive on each port whose record has MYRKOSTI_COLLECTING in its state,
 * since the LACPDU says so, and stop it sending on each port that distributes no longer. Answers 0 to 3, 10 or 11.
 */
uint32_t myrkosti_fetch(uint8_t *table, size_t table_len, uint32_t port, uint8_t *out, size_t out_len, struct myrkosti_counters *counters);

/*
 * A Marker for a port (43.5), to learn when all that was sent there has arrived. First stop handing frames of the conversation to the port. On answer 0
 * `out` begins with a frame of 124 octets, which you send on that port at once, behind the frames that wait there; octets after it are kept. Its Response,
 * handed to myrkosti_receive on the same port, makes the outcome in the record MYRKOSTI_MARKER_ANSWERED, if it comes before the last of the next `ticks`
 * ticks (1 to MYRKOSTI_LONGEST_WAIT); with that tick the outcome is MYRKOSTI_MARKER_TIMED_OUT, and a Response after it is answered 12. One that does not
 * bring back the port's number, the system's address and the transaction, or comes in on another port, is answered 12 too and ends nothing.
 * A port awaits one Marker at a time. Ask no more often than 43B.2 allows, five frames in any one second on a port: nothing here limits it.
 * docs/GUIDE-FIRMWARE.md has the steps. Answers 0 to 4, 13 or 14, tested in that order.
 */
uint32_t myrkosti_ask(uint8_t *table, size_t table_len, uint32_t port, uint32_t ticks, uint8_t *out, size_t out_len);

/*
 * The ports that have something to send, as a set, bit 0 is port 1: exactly those on which myrkosti_fetch, with a buffer of 124 octets, would be
 * answered 0. Ask once after every call that was answered 0 and may have changed something, and so after every tick, and fetch on these ports alone.
 * A fetch on every port would find the same, but every call checks the whole table's ranges first, and with nothing to send that check is all that a
 * fetch costs: this call costs about one of them. A port that three sends bar is in the set once a tick lets it speak. `ports` is written at every
 * call, with 0 beside a refusal, and nothing else is. Answers 0 or 1.
 */
uint32_t myrkosti_due(const uint8_t *table, size_t table_len, uint32_t *ports);

/*
 * The record of a port: as many octets of it as fit into the memory lent, from the front, at every call, with zeros beside a refusal. What the memory
 * has beyond the record stays as it was. Pass MYRKOSTI_RECORD octets: with a library whose record is longer you are given the fields that this header
 * knows. Answers 0, 1 or 2.
 */
uint32_t myrkosti_port(const uint8_t *table, size_t table_len, uint32_t port, uint8_t *record, size_t record_len);

/*
 * The ports of an aggregator as sets, bit 0 is port 1: those that hold it, those of them that are attached, and those that distribute: only
 * on these does the chip send traffic. (It receives where a port's record has MYRKOSTI_COLLECTING in its state.) `count` is how many
 * distribute, `lowest` the lowest of them, 0 for none. All five are written at every call, with zeros beside a refusal. Answers 0, 1 or 2.
 */
uint32_t myrkosti_aggregator(const uint8_t *table, size_t table_len, uint32_t aggregator,
                             uint32_t *holding, uint32_t *attached, uint32_t *distributing,
                             uint32_t *count, uint32_t *lowest);

/*
 * Why a port does not carry, or that it does: `cause` is one of the numbers above, and the port is in its aggregator's distributing set exactly if that is 1
 * or 2. With MYRKOSTI_WAITS `ticks` is what its own wait timer has left. With MYRKOSTI_HELD_BACK `holder` is the port that waits longest for the same
 * aggregator, the lowest-numbered of several, and `ticks` what that one has left: so many ticks more, if nothing else happens. Otherwise both are 0. A
 * holder may be a port whose own link is down. All three are written at every call, with zeros beside a refusal, and nothing else is: the table is only
 * read. Every call checks the whole table's ranges first, so ask where something changed, not of every port at every tick. Answers 0, 1 or 2.
 */
uint32_t myrkosti_why(const uint8_t *table, size_t table_len, uint32_t port, uint32_t *cause, uint32_t *holder, uint32_t *ticks);

/*
 * Why two ports are not in one trunk: `reasons` is a set of the bits above, 0 exactly if they share a group, and so always of a port and itself. In a table
 * that calls made they hold one aggregator then, and otherwise two. Link, duplex, port priority and the states play no part: the selection rule does not
 * read them. The partner of a port that is not heard is its default block as recorded, and of one whose link is down the last that was recorded. `reasons`
 * is written at every call and nothing else is. It is 0 beside a refusal too: look at the answer first. Answers 0, 1 or 2, where either number is of no port.
 */
uint32_t myrkosti_apart(const uint8_t *table, size_t table_len, uint32_t first, uint32_t second, uint32_t *reasons);

/* ---- new firmware under live trunks ---- */

/*
 * A table of the old form is what today's is without its churn monitors (docs/TABLE.md). The two calls below turn a table of either form into the other, so
 * that no trunk is dropped when new firmware is loaded, nor when a crew backs out of it. Make them between two calls on the table, whatever its ports are
 * doing: each goes on where it stood, and a Marker that is awaited stays so. docs/GUIDE-FIRMWARE.md has the steps.
 *
 * A library before version 0x0201 has tables without octets 71 to 77 of their records: version 0x0100 those of the old form, the others those of today's.
 * Put MYRKOSTI_ASKED zero octets for each port behind such a table, and it is one of its form: none was asked for. Without these last octets it is that
 * library's again.
 *
 * They read the table from one memory and write it into another, every octet of it, whatever that held. The source stays as it is. Answers 0 or 1:
 * the source is no table of the form asked for (its size, port count or a field is wrong; a table of the other form has a wrong size), or the
 * memory to write has not just the size of the other form for as many ports. Nothing is written then, and the source is as good as it was.
 */

/* The octets that the memory of a table of the old form of `ports` ports has, no more and no less; 0 for a count outside 1 to 32. */
uint32_t myrkosti_old_table_size(uint32_t ports);

/*
 * Turns a table of the old form into one of today's, of myrkosti_table_size octets. Churn counts are 0 then, and each monitor begins afresh and looks once:
 * in Synchronization with the link up it is at NO_CHURN, and otherwise it has a minute ahead.
 */
uint32_t myrkosti_forward(const uint8_t *old_table, size_t old_len, uint8_t *new_table, size_t new_len);

/* Turns a table into one of the old form, of myrkosti_old_table_size octets. What the monitors knew is dropped, and nothing else. */
uint32_t myrkosti_back(const uint8_t *new_table, size_t new_len, uint8_t *old_table, size_t old_len);

/* ---- the calls with names for their arguments ---- */

/* This switch as it names itself to its neighbours; address and priority must be its own. */
struct myrkosti_system {
    uint8_t address[6];
    uint16_t priority;
    uint16_t collector_max_delay; /* in tens of microseconds */
};

/* The settings of a port. */
struct myrkosti_port_settings {
    uint8_t address[6]; /* the port's own, with which its frames go out */
    uint16_t key;       /* ports of different keys are never in one trunk */
    uint16_t priority;
    bool activity;      /* true is active: it speaks without being spoken to */
    bool timeout;       /* true is short: the partner is asked for an LACPDU a second, and given up after three without one */
    bool aggregation;   /* false: always by itself */
    uint8_t partner[MYRKOSTI_BLOCK]; /* assumed of a partner that is not heard */
};

/* What to start with where nothing else is known; docs/GUIDE-FIRMWARE.md says why. `address` is one of the switch's own. */
static inline struct myrkosti_system myrkosti_usual_system(const uint8_t address[6])
{
    struct myrkosti_system system;
    for (size_t i = 0; i < 6; i++)
        system.address[i] = address[i];
    system.priority = 32768;
    system.collector_max_delay = 0;
    return system;
}

/* Active, short, aggregatable; a partner that is not heard carries nothing. `key`: one for each data rate, not 0. */
static inline struct myrkosti_port_settings myrkosti_usual_settings(const uint8_t address[6], uint16_t key)
{
    struct myrkosti_port_settings settings;
    for (size_t i = 0; i < 6; i++)
        settings.address[i] = address[i];
    settings.key = key;
    settings.priority = 32768;
    settings.activity = true;
    settings.timeout = true;
    settings.aggregation = true;
    for (size_t i = 0; i < MYRKOSTI_BLOCK; i++)
        settings.partner[i] = 0;
    settings.partner[MYRKOSTI_BLOCK_STATE] = MYRKOSTI_TIMEOUT;
    return settings;
}

/* myrkosti_start */
static inline uint32_t myrkosti_start_with(uint8_t *table, size_t table_len, uint32_t ports,
                                           const struct myrkosti_system *system, const struct myrkosti_port_settings *settings)
{
    return myrkosti_start(table, table_len, ports, system->priority, system->address, system->collector_max_delay,
                          settings->address, settings->key, settings->priority,
                          settings->activity, settings->timeout, settings->aggregation, settings->partner);
}

/* myrkosti_settings */
static inline uint32_t myrkosti_settings_with(uint8_t *table, size_t table_len, uint32_t port, const struct myrkosti_port_settings *settings)
{
    return myrkosti_settings(table, table_len, port, settings->address, settings->key, settings->priority,
                             settings->activity, settings->timeout, settings->aggregation, settings->partner);
}

/* Whether the library that is linked is of this header's generation and has all that this header tells of. */
static inline bool myrkosti_fits(void)
{
    const uint32_t linked = myrkosti_version();
    return linked >> 8 == MYRKOSTI_VERSION >> 8 && linked >= MYRKOSTI_VERSION;
}

/* The number of two octets that begins here, as the key at record + MYRKOSTI_AT_KEY. */
static inline uint16_t myrkosti_number(const uint8_t *octets)
{
    return (octets[0] << 8 | octets[1]) & 0xffff;
}

/* The number of four octets that begins here, as a count at record + MYRKOSTI_AT_PARTNER_CHURN_COUNT. */
static inline uint32_t myrkosti_long_number(const uint8_t *octets)
{
    uint32_t number = 0;
    for (size_t i = 0; i < 4; i++)
        number = number << 8 | octets[i];
    return number;
}

/* Writes a number of two octets here, as a port into a block + MYRKOSTI_BLOCK_PORT. */
static inline void myrkosti_put_number(uint8_t *octets, uint16_t number)
{
    const uint32_t wide = number;
    octets[0] = wide >> 8 & 0xff;
    octets[1] = wide & 0xff;
}

#ifdef __cplusplus
}
#endif

#endif
