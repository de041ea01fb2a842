/*
 * Moves between the two forms of a table through include/myrkosti.h: in any memory, and under live trunks, with libraries of before beside that of today
 * (tools/yesterday.sh). Prints one line for each check that fails, and how many passed.
 */
#include "myrkosti.h"

#include "any.h"
#include "check.h"
#include "monitors.h"
#include "neighbour.h"
#include "ranges.h"
#include "unread.h"
#include "yesterday.h"

#include <stdio.h>
#include <string.h>

enum { PORTS = 4, LARGEST = MYRKOSTI_TABLE(MYRKOSTI_PORTS), BEYOND = 8 };

/* ---- a move, and what must hold of every one ---- */

struct direction {
    uint32_t (*move)(const uint8_t *source, size_t source_len, uint8_t *target, size_t target_len);
    uint32_t (*from)(uint32_t ports), (*to)(uint32_t ports); /* the sizes of source and target */
};

static const struct direction FORWARD = {myrkosti_forward, myrkosti_old_table_size, myrkosti_table_size};
static const struct direction BACK = {myrkosti_back, myrkosti_table_size, myrkosti_old_table_size};
static const struct direction *const DIRECTIONS[2] = {&FORWARD, &BACK};

static bool all_are(const uint8_t *octets, size_t count, uint8_t octet)
{
    for (size_t i = 0; i < count; i++)
        if (octets[i] != octet)
            return false;
    return true;
}

/* a move into memory that holds any octet; the source stays, nothing beyond the target is touched, and nothing of it on a refusal. The target goes into `to` */
static uint32_t attempt(const struct direction *direction, const uint8_t *source, size_t source_len, uint8_t *to, size_t target_len)
{
    static uint8_t before[LARGEST + BEYOND], memory[LARGEST + 3 * BEYOND];
    const uint8_t filling = (uint8_t)any(256);
    memcpy(before, source, source_len);
    memset(memory, filling, sizeof memory);
    const uint32_t answer = direction->move(source, source_len, memory + BEYOND, target_len);
    IS(memcmp(source, before, source_len), 0);
    check(all_are(memory, BEYOND, filling), "nothing before the target is touched");
    check(all_are(memory + BEYOND + target_len, sizeof memory - BEYOND - target_len, filling), "nothing behind the target is touched");
    check(answer == MYRKOSTI_DONE || all_are(memory + BEYOND, target_len, filling), "a refusal writes nothing");
    memcpy(to, memory + BEYOND, target_len);
    return answer;
}

/* a move that is made: the octets of both forms as they are, and in the form of today monitors that begin and run once */
static void move(const struct direction *direction, const uint8_t *source, uint32_t ports, uint8_t *to)
{
    uint8_t expected[LARGEST];
    const bool forward = direction == &FORWARD;
    memcpy(expected, source, front_size(ports, false));
    memcpy(expected + front_size(ports, forward), source + front_size(ports, !forward), MYRKOSTI_ASKED * ports);
    if (forward)
        begin_all(expected, ports);
    IS(attempt(direction, source, direction->from(ports), to, direction->to(ports)), MYRKOSTI_DONE);
    IS(memcmp(to, expected, direction->to(ports)), 0);
}

static void refuse(const struct direction *direction, const uint8_t *source, size_t source_len, size_t target_len)
{
    uint8_t target[LARGEST + BEYOND];
    IS(attempt(direction, source, source_len, target, target_len), MYRKOSTI_TABLE_WRONG);
}

/* ---- in any memory ---- */

static void have_sizes(void)
{
    for (uint32_t ports = 1; ports <= MYRKOSTI_PORTS; ports++) {
        IS(myrkosti_old_table_size(ports), MYRKOSTI_HEADER + 57 * ports + 7 * ports);
        IS(myrkosti_old_table_size(ports), MYRKOSTI_OLD_TABLE(ports));
        IS(myrkosti_table_size(ports) - myrkosti_old_table_size(ports), GROUP * ports);
        IS(YESTERDAY.table_size(ports), front_size(ports, false));
        IS(YESTERDAY.table_size(ports), MYRKOSTI_OLD_TABLE(ports) - MYRKOSTI_ASKED * ports);
        IS(LATELY.table_size(ports), front_size(ports, true));
        IS(LATELY.table_size(ports), MYRKOSTI_TABLE(ports) - MYRKOSTI_ASKED * ports);
    }
    IS(myrkosti_old_table_size(0), 0);
    IS(myrkosti_old_table_size(MYRKOSTI_PORTS + 1), 0);
    IS(myrkosti_old_table_size(0x101), 0);
    IS(myrkosti_old_table_size(0xffffffff), 0);
    IS(YESTERDAY.version(), 0x0100);
    IS(LATELY.version(), 0x0200);
}

/* the fields that have a range, and how many values it has */
static const struct {
    unsigned at;
    uint16_t values;
} OCTETS[] = {{MYRKOSTI_AT_RECEIVE, 6}, {MYRKOSTI_AT_PERIODIC, 4}, {MYRKOSTI_AT_MUX, 5}, {MYRKOSTI_AT_SELECTED, 2}, {MYRKOSTI_AT_NTT, 2}, {MYRKOSTI_AT_LINK, 2},
              {MYRKOSTI_AT_DUPLEX, 2}, {MYRKOSTI_AT_WAIT_TIMER, 21}, {MYRKOSTI_AT_ACTOR_CHURN, 3}, {MYRKOSTI_AT_PARTNER_CHURN, 3},
              {MYRKOSTI_AT_MARKER, MYRKOSTI_MARKER_CANCELLED + 1}},
  NUMBERS[] = {{MYRKOSTI_AT_CURRENT_WHILE, 901}, {MYRKOSTI_AT_PERIODIC_TIMER, 301}, {MYRKOSTI_AT_ACTOR_CHURN_TIMER, MINUTE + 1},
               {MYRKOSTI_AT_PARTNER_CHURN_TIMER, MINUTE + 1}, {MYRKOSTI_AT_MARKER_TIMER, MYRKOSTI_LONGEST_WAIT + 1}};

#define COUNT(array) (sizeof array / sizeof array[0])

/* a table of the form of today with any content that is in range */
static void put_any(uint8_t *table, uint32_t ports)
{
    for (size_t i = 0; i < MYRKOSTI_TABLE(ports); i++)
        table[i] = (uint8_t)any(256);
    table[0] = (uint8_t)ports;
    for (uint32_t port = 1; port <= ports; port++) {
        for (size_t i = 0; i < COUNT(OCTETS); i++)
            table[place(ports, port, OCTETS[i].at)] = (uint8_t)any(OCTETS[i].values);
        for (size_t i = 0; i < COUNT(NUMBERS); i++)
            myrkosti_put_number(table + place(ports, port, NUMBERS[i].at), (uint16_t)any(NUMBERS[i].values));
        table[place(ports, port, MYRKOSTI_AT_AGGREGATOR)] = (uint8_t)(1 + any(ports));
        for (unsigned age = 0; age < 3; age++)
            table[place(ports, port, MYRKOSTI_AT_AGES + age)] = (uint8_t)(any(2) == 0 ? 255 : any(11));
    }
}

/* the same of the form that a move begins with */
static void put_any_source(const struct direction *direction, uint8_t *table, uint32_t ports)
{
    put_any(table, ports);
    if (direction == &FORWARD)
        memmove(table + front_size(ports, false), table + front_size(ports, true), MYRKOSTI_ASKED * ports);
}

/* every count: back drops the monitors, forward begins them, and old to new to old is the table that it was */
static void there_and_back(void)
{
    for (uint32_t ports = 1; ports <= MYRKOSTI_PORTS; ports++) {
        for (int tables = 0; tables < 20; tables++) {
            uint8_t table[LARGEST], old[LARGEST], new[LARGEST], again[LARGEST];
            put_any(table, ports);
            move(&BACK, table, ports, old);
            move(&FORWARD, old, ports, new);
            move(&BACK, new, ports, again);
            IS(memcmp(again, old, MYRKOSTI_OLD_TABLE(ports)), 0);
        }
    }
}

/* all sizes but the right one, of source and target, the other form's among them; and no memory at all */
static void refuse_sizes(void)
{
    static const uint32_t COUNTS[] = {1, 2, PORTS, MYRKOSTI_PORTS - 1, MYRKOSTI_PORTS};
    uint8_t table[LARGEST + BEYOND] = {0}, none[1];
    for (size_t i = 0; i < 2 * COUNT(COUNTS); i++) {
        const struct direction *direction = DIRECTIONS[i % 2];
        const uint32_t ports = COUNTS[i / 2];
        const size_t from = direction->from(ports), to = direction->to(ports);
        put_any_source(direction, table, ports);
        for (size_t size = 0; size < LARGEST + BEYOND; size++) {
            if (size != to)
                refuse(direction, table, from, size);
            if (size != from)
                refuse(direction, table, size, to);
        }
        refuse(direction, table, to, from);
        refuse(direction, table, to, to);
        IS(direction->move(table, from, NULL, 0), MYRKOSTI_TABLE_WRONG);
        IS(direction->move(NULL, 0, none, 0), MYRKOSTI_TABLE_WRONG);
        IS(direction->move(NULL, 0, NULL, 0), MYRKOSTI_TABLE_WRONG);
    }
}

/* another port count, and each field of each port out of its range; a table of the old form has no churn fields that could be */
static void refuse_contents(void)
{
    static const struct wrong_octet OUT_OF_RANGE[] = OUT_OF_RANGE_OF(PORTS);
    uint8_t table[MYRKOSTI_TABLE(PORTS)], broken[MYRKOSTI_TABLE(PORTS)], target[LARGEST];
    for (size_t d = 0; d < 2; d++) {
        const struct direction *direction = DIRECTIONS[d];
        put_any_source(direction, table, PORTS);
        memcpy(broken, table, sizeof table);
        for (unsigned count = 0; count < 256; count++) {
            broken[0] = (uint8_t)count;
            if (count != PORTS)
                refuse(direction, broken, direction->from(PORTS), direction->to(PORTS));
        }
        for (size_t i = 0; i < PORTS * COUNT(OUT_OF_RANGE); i++) {
            const struct wrong_octet wrong = OUT_OF_RANGE[i / PORTS];
            const bool churn = wrong.at >= FRONT && wrong.at < BEHIND;
            if (churn && direction == &FORWARD)
                continue;
            memcpy(broken, table, sizeof table);
            broken[(direction == &FORWARD ? old_place : place)(PORTS, 1 + i % PORTS, wrong.at)] = wrong.octet;
            refuse(direction, broken, direction->from(PORTS), direction->to(PORTS));
        }
        move(direction, table, PORTS, target);
    }
}

/* ---- tables of libraries that knew of no Marker ---- */

static const struct library *const BEFORE[2] = {&YESTERDAY, &LATELY};

static uint32_t start_by(const struct library *library, uint8_t *table, uint32_t ports)
{
    static const uint8_t address[6] = {2, 0, 0, 0, 0, 9};
    const struct myrkosti_system us = myrkosti_usual_system(address);
    const struct myrkosti_port_settings s = myrkosti_usual_settings(address, 1);
    return library->start(table, library->table_size(ports), ports, us.priority, us.address, us.collector_max_delay, s.address, s.key, s.priority,
                          s.activity, s.timeout, s.aggregation, s.partner);
}

/*
 * A table of any content of yesterday's or lately's is refused by every move as it is. With zeros behind it, it is one of its form, and none was asked for;
 * moved forward and back, without these octets, it is what it was. A start gives the same by each library.
 */
static void put_behind_tables_of_before(void)
{
    for (size_t i = 0; i < 2 * MYRKOSTI_PORTS; i++) {
        const struct library *const library = BEFORE[i % 2];
        const uint32_t ports = (uint32_t)(1 + i / 2);
        const size_t length = library->table_size(ports);
        uint8_t any_table[LARGEST], today[LARGEST], again[LARGEST], started[LARGEST];
        put_any(any_table, ports);
        refuse(&FORWARD, any_table, length, MYRKOSTI_TABLE(ports));
        refuse(&BACK, any_table, length, MYRKOSTI_OLD_TABLE(ports));
        IS(load_today(library, any_table, today), MYRKOSTI_DONE);
        IS(memcmp(today, any_table, front_size(ports, library == &LATELY)), 0);
        check(all_are(today + front_size(ports, true), MYRKOSTI_ASKED * ports, 0), "no Marker was asked for");
        IS(myrkosti_tick(today, MYRKOSTI_TABLE(ports) - 1), MYRKOSTI_TABLE_WRONG);
        IS(load_before(library, today, again), MYRKOSTI_DONE);
        IS(memcmp(again, any_table, length), 0);
        IS(myrkosti_tick(today, MYRKOSTI_TABLE(ports)), MYRKOSTI_DONE);

        IS(start_by(library, again, ports), MYRKOSTI_DONE);
        IS(load_today(library, again, today), MYRKOSTI_DONE);
        IS(start_by(&TODAY, started, ports), MYRKOSTI_DONE);
        IS(memcmp(today, started, MYRKOSTI_TABLE(ports)), 0);
    }
}

/* ---- a switch that changes its library, and its neighbour ---- */

struct end {
    const struct library *library;
    uint8_t table[MYRKOSTI_TABLE(PORTS)]; /* of the form that its library has */
};

/* our switch and another one, port i joined to port i, and every frame since the last tick */
struct world {
    struct end ours, theirs;
    uint32_t unheard, silent; /* ports on which the neighbour does not hear us, and we not the neighbour */
    size_t frames;
    struct frame {
        uint8_t octets[MYRKOSTI_FRAME];
        uint32_t port, answer; /* where it came in, and what it was answered there */
    } said[64];
};

enum { LOST = 255 }; /* in the place of an answer */

static uint32_t bit(uint32_t port)
{
    return 1u << (port - 1);
}

static size_t size_of(const struct end *end)
{
    return end->library->table_size(PORTS);
}

static struct myrkosti_port_settings settings_of(uint8_t name, uint16_t key)
{
    const uint8_t address[6] = {2, 0, 0, 0, 1, name};
    return myrkosti_usual_settings(address, key);
}

static void begin(struct end *end, const struct library *library, uint8_t name)
{
    const uint8_t address[6] = {2, 0, 0, 0, 0, name};
    const struct myrkosti_system us = myrkosti_usual_system(address);
    const struct myrkosti_port_settings s = settings_of(name, 1);
    end->library = library;
    IS(library->start(end->table, size_of(end), PORTS, us.priority, us.address, us.collector_max_delay, s.address, s.key, s.priority, s.activity, s.timeout,
                      s.aggregation, s.partner), MYRKOSTI_DONE);
}

static void line(struct world *world, uint32_t port, bool up, bool full)
{
    IS(world->ours.library->line(world->ours.table, size_of(&world->ours), port, up, full), MYRKOSTI_DONE);
    IS(world->theirs.library->line(world->theirs.table, size_of(&world->theirs), port, up, full), MYRKOSTI_DONE);
}

static void set_key(struct end *end, uint32_t port, uint16_t key)
{
    const struct myrkosti_port_settings s = settings_of(1, key);
    IS(end->library->settings(end->table, size_of(end), port, s.address, s.key, s.priority, s.activity, s.timeout, s.aggregation, s.partner), MYRKOSTI_DONE);
}

/* a frame comes in, and is noted with its answer; so is a Response to it */
static void hear(struct world *world, struct end *end, uint32_t port, const uint8_t frame[MYRKOSTI_FRAME], bool lost)
{
    struct frame *note = &world->said[world->frames++];
    uint8_t response[MYRKOSTI_FRAME];
    uint32_t sent = 0;
    memcpy(note->octets, frame, MYRKOSTI_FRAME);
    note->port = port;
    note->answer = LOST;
    if (!lost)
        note->answer = end->library->receive(end->table, size_of(end), port, frame, MYRKOSTI_FRAME, response, sizeof response, &sent, &unread);
    if (sent != 0)
        hear(world, end == &world->ours ? &world->theirs : &world->ours, port, response, false);
}

static void say(struct world *world, struct end *from, struct end *to, uint32_t lost)
{
    uint8_t frame[MYRKOSTI_FRAME];
    uint32_t ports;
    IS(from->library->due(from->table, size_of(from), &ports), MYRKOSTI_DONE);
    for (uint32_t port = 1; port <= PORTS; port++) {
        if ((ports & bit(port)) != 0) {
            IS(from->library->fetch(from->table, size_of(from), port, frame, sizeof frame, &unread), MYRKOSTI_DONE);
            hear(world, to, port, frame, (lost & bit(port)) != 0);
        }
    }
}

/* until neither end has anything to say */
static void talk(struct world *world)
{
    size_t before;
    do {
        before = world->frames;
        say(world, &world->ours, &world->theirs, world->unheard);
        say(world, &world->theirs, &world->ours, world->silent);
    } while (world->frames > before);
}

static void tick(struct end *end)
{
    IS(end->library->tick(end->table, size_of(end)), MYRKOSTI_DONE);
}

/* the table goes to another library, which goes on with it */
static void change_library(struct end *end, const struct library *to)
{
    uint8_t target[LARGEST];
    IS(to == &TODAY ? load_today(end->library, end->table, target) : load_before(to, end->table, target), MYRKOSTI_DONE);
    end->library = to;
    memcpy(end->table, target, size_of(end));
}

/* the table is moved back and forward, and its library stays */
static void there_and_back_again(struct end *end)
{
    uint8_t old[LARGEST];
    move(&BACK, end->table, PORTS, old);
    move(&FORWARD, old, PORTS, end->table);
}

struct reports {
    uint32_t of[PORTS][6]; /* of each aggregator: the answer, then its sets and numbers */
};

static struct reports report(const struct end *end)
{
    struct reports all;
    for (uint32_t i = 0; i < PORTS; i++) {
        uint32_t *r = all.of[i];
        r[0] = end->library->aggregator(end->table, size_of(end), i + 1, r + 1, r + 2, r + 3, r + 4, r + 5);
    }
    return all;
}

/* how many ports distribute on the aggregator of port 1 */
static uint32_t carrying(const struct end *end)
{
    return report(end).of[0][4];
}

/* ---- a story, with moves and without ---- */

enum event { PLUG, PULL, HALVE, LEAVE, JOIN, UNHEARD, SILENT, HEARD, MARK };

static const struct {
    int tick;
    enum event event;
    uint32_t port;
} STORY[] = {
    {0, PLUG, 1}, {0, PLUG, 2},         /* a trunk of two links, which carries from tick 20 on */
    {95, PLUG, 3},                      /* a third comes up beside it */
    {150, UNHEARD, 4}, {151, PLUG, 4},  /* on a fourth the neighbour never hears us, until tick 1000 */
    {300, MARK, 2},
    {320, PULL, 1}, {352, PLUG, 1},     /* the trunk's lowest link falls */
    {420, SILENT, 2}, {497, HEARD, 2},  /* one is silent: EXPIRED, DEFAULTED, and back */
    {560, HALVE, 3}, {593, PLUG, 3},
    {650, LEAVE, 2}, {683, JOIN, 2},    /* another key, and its own again */
    {1000, HEARD, 4},
};
enum { END = 1200 };

static void happen(struct world *world, enum event event, uint32_t port)
{
    uint8_t marker[MYRKOSTI_FRAME];
    switch (event) {
    case PLUG:
    case PULL:
    case HALVE:
        line(world, port, event != PULL, event != HALVE);
        break;
    case LEAVE:
    case JOIN:
        set_key(&world->ours, port, event == LEAVE ? 7 : 1);
        break;
    case UNHEARD:
        world->unheard |= bit(port);
        break;
    case SILENT:
        world->silent |= bit(port);
        break;
    case HEARD:
        world->unheard &= ~bit(port);
        world->silent &= ~bit(port);
        break;
    case MARK:
        put_marker(marker, 1);
        hear(world, &world->ours, port, marker, false);
        break;
    }
}

static void tell(struct world *world, int now)
{
    for (size_t i = 0; i < COUNT(STORY); i++)
        if (STORY[i].tick == now)
            happen(world, STORY[i].event, STORY[i].port);
}

/* who drives our switch: the first library, and every `turn` ticks, unless that is 0, the table goes to the other one, so often to one and back */
struct schedule {
    const char *name;
    const struct library *first, *other;
    int turn, moves;
};

static const struct schedule SCHEDULES[] = {
    {"yesterday's library alone", &YESTERDAY, NULL, 0, 0}, /* what the others are held against */
    {"today's library alone", &TODAY, NULL, 0, 0},
    {"lately's library alone", &LATELY, NULL, 0, 0},
    {"yesterday's and today's in turn, a tick each", &YESTERDAY, &TODAY, 1, 1},
    {"yesterday's and today's in turn, 7 ticks each", &YESTERDAY, &TODAY, 7, 1},
    {"yesterday's and today's in turn, 30 seconds each", &YESTERDAY, &TODAY, 300, 1},
    {"yesterday's, and each second forward and back", &YESTERDAY, &TODAY, 10, 2},
    {"lately's and today's in turn, a tick each", &LATELY, &TODAY, 1, 1},
    {"lately's and today's in turn, 30 seconds each", &LATELY, &TODAY, 300, 1},
    {"today's, and at every tick back and forward by way of yesterday's", &TODAY, &YESTERDAY, 1, 2},
    {"today's, and back and forward while a link churns", &TODAY, &YESTERDAY, 790, 2},
};
enum { SCHEDULED = COUNT(SCHEDULES) };

/* a tick of the story. The moves come before its events, behind them, or where the tick has made LACPDUs due */
static void step(struct world *world, const struct schedule *schedule, int now)
{
    const bool moved = schedule->turn > 0 && now > 0 && now % schedule->turn == 0;
    const int moment = moved ? now / schedule->turn % 3 : -1;
    world->frames = 0;
    for (int part = 0; part < 3; part++) {
        for (int moves = 0; part == moment && moves < schedule->moves; moves++)
            change_library(&world->ours, world->ours.library == schedule->first ? schedule->other : schedule->first);
        if (part == 0)
            tell(world, now);
        if (part == 1)
            tick(&world->ours);
    }
    tick(&world->theirs);
    talk(world);
}

static void agree(bool holds, const char *what, const struct schedule *schedule, int now)
{
    char text[160];
    snprintf(text, sizeof text, "%s at tick %d: %s as with yesterday's library alone", schedule->name, now, what);
    check(holds, text);
}

/* frames and their answers, every octet of yesterday's table, what aggregators report, and every octet of the neighbour's table */
static void compare(const struct world *world, const struct world *alone, const struct schedule *schedule, int now)
{
    const struct reports ours = report(&world->ours), expected = report(&alone->ours);
    agree(world->frames == alone->frames && memcmp(world->said, alone->said, alone->frames * sizeof alone->said[0]) == 0, "frames", schedule, now);
    agree(memcmp(world->ours.table, alone->ours.table, front_size(PORTS, false)) == 0, "table", schedule, now);
    agree(memcmp(&ours, &expected, sizeof ours) == 0, "aggregators", schedule, now);
    agree(memcmp(world->theirs.table, alone->theirs.table, sizeof alone->theirs.table) == 0, "neighbour", schedule, now);
}

static void begin_story(struct world *world, const struct library *library)
{
    memset(world, 0, sizeof *world);
    begin(&world->ours, library, 1);
    begin(&world->theirs, &TODAY, 2);
}

/* all schedules side by side, tick by tick; a trunk carries for most of the story, and in it there is something to notice: many frames, and churn */
static void tell_the_story(void)
{
    static struct world worlds[SCHEDULED];
    unsigned carried = 0, frames = 0;
    for (size_t i = 0; i < SCHEDULED; i++)
        begin_story(&worlds[i], SCHEDULES[i].first);
    for (int now = 0; now < END; now++) {
        for (size_t i = 0; i < SCHEDULED; i++) {
            step(&worlds[i], &SCHEDULES[i], now);
            if (i > 0)
                compare(&worlds[i], &worlds[0], &SCHEDULES[i], now);
        }
        carried += carrying(&worlds[0].ours) >= 2;
        frames += worlds[0].frames;
    }
    check(carried > END / 2, "a trunk carries for most of the story");
    check(frames > END / 2, "many frames are sent");
    IS(carrying(&worlds[0].ours), PORTS);
    IS(monitor_of(worlds[1].ours.table, PORTS, 4, PARTNER).count, 1);
    IS(monitor_of(worlds[SCHEDULED - 1].ours.table, PORTS, 4, PARTNER).count, 0);
}

/* ---- monitors after a move ---- */

#define IS_MONITOR(table, port, which, expected_state, expected_timer, expected_count) \
    do { \
        const struct monitor m = monitor_of(table, PORTS, port, which); \
        IS(m.state, expected_state); \
        IS(m.timer, expected_timer); \
        IS(m.count, expected_count); \
    } while (0)

/* the end of the trunk's first link, of one that came up a moment ago, and of a port without a link */
static void begin_monitors(void)
{
    static struct world world;
    const struct schedule unmoved = {"today's library alone", &TODAY, NULL, 0, 0};
    const uint8_t *const table = world.ours.table;
    begin_story(&world, &TODAY);
    for (int now = 0; now < 100; now++)
        step(&world, &unmoved, now);
    IS(carrying(&world.ours), 2);
    IS_MONITOR(table, 3, ACTOR, MYRKOSTI_CHURN_MONITOR, MINUTE - 4, 0); /* it heard its partner after tick 95, and waits since */
    for (uint32_t port = 1; port <= PORTS; port++)
        put_monitor(world.ours.table, PORTS, port, ACTOR, (struct monitor){MYRKOSTI_CHURN, 9, 9});
    there_and_back_again(&world.ours);
    for (enum which which = ACTOR; which <= PARTNER; which++) {
        IS_MONITOR(table, 1, which, MYRKOSTI_NO_CHURN, 0, 0);
        IS_MONITOR(table, 4, which, MYRKOSTI_CHURN_MONITOR, MINUTE, 0);
    }
    IS_MONITOR(table, 3, ACTOR, MYRKOSTI_CHURN_MONITOR, MINUTE, 0);
    IS(carrying(&world.ours), 2);
}

/* a link that churned when the table was moved is told of again, and counted, a minute after the move */
static void churn_a_minute_after(void)
{
    static struct world world;
    const uint8_t *const table = world.ours.table;
    begin_story(&world, &TODAY);
    happen(&world, UNHEARD, 4);
    happen(&world, PLUG, 4);
    for (int ticks = 0; ticks < 2 * MINUTE + 50; ticks++) {
        if (ticks == MINUTE + 50) {
            IS_MONITOR(table, 4, PARTNER, MYRKOSTI_CHURN, 0, 1);
            there_and_back_again(&world.ours);
        }
        if (ticks >= MINUTE + 50)
            IS_MONITOR(table, 4, PARTNER, MYRKOSTI_CHURN_MONITOR, 2 * MINUTE + 50 - ticks, 0);
        world.frames = 0;
        tick(&world.ours);
        tick(&world.theirs);
        talk(&world);
    }
    IS_MONITOR(table, 4, PARTNER, MYRKOSTI_CHURN, 0, 1);
}

int main(void)
{
    have_sizes();
    there_and_back();
    refuse_sizes();
    refuse_contents();
    put_behind_tables_of_before();
    tell_the_story();
    begin_monitors();
    churn_a_minute_after();
    return finish("moves between the two forms");
}
