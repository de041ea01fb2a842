"""The library against a real neighbour: two links to Open vSwitch, in step, tick by tick.

A tick of ours is a tenth of a second of the neighbour's clock, which stands still otherwise; so each run is the same, and the ticks at which
something must happen are exact. Each part below starts from a trunk of both links and leaves one.

Open vSwitch answers no Markers: those of ours are counted there and time out. So a second switch of ours is the neighbour that answers them, and that leaves
the trunk in ways which Open vSwitch does not have.

Then new firmware is loaded under the trunk: a switch that began with a library of before has its table moved to that of today, and back.

Each disturbance must be named: by the cause that the report of why gives for each port, at every tick, and by the reasons for which the two ports are apart.
The sentences that the desk would be told are printed below each part, as they change.

All that passed our ports meanwhile goes into a capture, and the counters of each port must be what tshark counts there.

Last come switches with which these parts must fail: one that never sends, so that the neighbour must not come to use a link, and some that load new
firmware in a way that the neighbour must notice; one that names a wrong cause; Responses that get lost; and a capture that misses frames.
"""

import tempfile
from contextlib import contextmanager

from capture import CAPTURES, Captured, by_name, hold_counters, left_out
from neighbour import KEY, MEMBERS, SYSTEM, SYSTEM_PRIORITY, Neighbour
from switch import (ALREADY_AWAITING, ANSWERED, AWAITING, CANCELLED, CARRIES, CARRIES_BY_DEFAULT, CHURN, CHURN_MONITOR, CURRENT, DEFAULTED, DONE,
                    EXPIRED, FIRST_LOOPED, FIRST_PARTNER_INDIVIDUAL, HALF_DUPLEX, HELD_BACK, IS_DEFAULTED, IS_EXPIRED, LACP_OFF, LINK_DOWN, NEVER_ASKED,
                    NO_CHURN, NOBODY, NOT_DISTRIBUTING, OUT_OF_SYNC, PARTNER_KEYS_DIFFER, PARTNER_PRIORITIES_DIFFER, PARTNER_SYSTEMS_DIFFER, RESPONSE,
                    SECOND_INDIVIDUAL, SECOND_LOOPED, SECOND_PARTNER_INDIVIDUAL, SLOW_ADDRESS, TIMED_OUT, WAITS, Aggregator, Apart, Block, Checks, Settings,
                    System, Why, bit, run)

# Two ports of four; the other two have no cable.
FIRST, SECOND, PORTS = 2, 4, 4
BOTH = {FIRST, SECOND}
OURS = System(0x4321, bytes.fromhex("020000000009"), 7)
SETTINGS = Settings(bytes.fromhex("02005e102030"), 0x0099, 0x0088, True, True, True, NOBODY._replace(state=bit("timeout")))

# In ticks.
FAST, SLOW, SHORT, LONG, WAIT, MINUTE = 10, 300, 30, 900, 20, 600
# In this time two ends that can hear each other have a trunk: one of them sends, and then Ready is waited for.
SOON = FAST + WAIT
# So long our switch may stand still: the next LACPDU comes a second and this after the one before, within the neighbour's short Timeout.
PAUSE = SHORT - FAST - 1


def other(port):
    """The port of ours at the other link."""
    return FIRST + SECOND - port


def given_up(port):
    """By what the ports are apart where the partner of this one was given up: its default block is nobody's, and not aggregatable."""
    alone = FIRST_PARTNER_INDIVIDUAL if port == FIRST else SECOND_PARTNER_INDIVIDUAL
    return alone | PARTNER_PRIORITIES_DIFFER | PARTNER_SYSTEMS_DIFFER | PARTNER_KEYS_DIFFER


def is_another(partner, block):
    """Whether a port that has one partner and hears of the other is selected anew (43.4.9)."""
    return partner[:5] != block[:5] or partner.has("aggregation") != block.has("aggregation")


class World:
    """Our switch, the neighbour, and the two cables between them."""

    def __init__(self, switch, neighbour, checks):
        self.switch, self.neighbour, self.checks = switch, neighbour, checks
        self.cables = dict(zip((FIRST, SECOND), MEMBERS, strict=True))
        self.now = 0
        self.heard, self.said = {}, {}  # the tick of the last frame that came to a port, and that it sent
        self.sent, self.came = dict.fromkeys(BOTH, 0), dict.fromkeys(BOTH, 0)
        self.deaf, self.lost = set(), set()  # ports whose frames from the neighbour, or to it, get lost
        self.anew = {}  # the tick at which a port heard another partner than it had, and so was selected anew
        self.told, self.news = {}, []  # the sentences that are true now, and those that became so, with their ticks
        switch.start(PORTS, OURS, SETTINGS)
        neighbour.start()

    def carry(self):
        """Frames that are ready at either end go to the other; how many there were."""
        moved = 0
        due = self.switch.due()
        for port, name in self.cables.items():
            if port in due:
                moved += 1
                answer, frame = self.switch.fetch(port)
                self.checks.equal("answer to a fetch of what is due", answer, DONE)
                self.send(port, name, frame)
        for port, name in self.cables.items():
            for frame in self.neighbour.received(name):
                moved += 1
                self.hear(port, frame)
        return moved

    def send(self, port, name, frame):
        """A frame of ours on its way."""
        self.sent[port] += 1
        if port not in self.lost:
            self.said[port] = self.now
            self.neighbour.send(name, frame)

    def hear(self, port, frame):
        """A frame of the neighbour's on its way: an LACPDU, which is taken unless the link is down or the duplex half."""
        self.checks.equal("destination and subtype of a frame", (frame[:6], frame[14]), (SLOW_ADDRESS, 1))
        self.came[port] += 1
        if port in self.deaf:
            return
        before = self.switch.port(port)
        answer, _ = self.switch.receive(port, frame)
        self.checks.equal("answer to the neighbour's frame", answer, DONE if before.link and before.duplex else LACP_OFF)
        if answer == DONE:
            self.heard[port] = self.now
            if is_another(before.partner, Block.read(frame[18:33])):
                self.anew[port] = self.now
            self.listen()

    def settle(self):
        """Frames go both ways until none is left, and then what is new is noted."""
        while self.carry():
            pass
        self.listen()

    def listen(self):
        """Notes what the reports say of the two links, where that is another sentence than before; ticks that run down make no other one."""
        if not self.switch.is_todays:
            self.told = {}
            return
        for place, said in enumerate((self.switch.why(FIRST), self.switch.why(SECOND), self.switch.apart(FIRST, SECOND))):
            kind = said._replace(ticks=0) if isinstance(said, Why) else said
            if self.told.get(place) != kind:
                self.told[place] = kind
                self.news.append((self.now, str(said)))

    def tick(self):
        """A tenth of a second passes at both ends."""
        self.now += 1
        self.switch.tick()
        self.neighbour.warp()
        self.settle()

    def stand_still(self, ticks, what):
        """Our switch does nothing for so long, and what the neighbour sends waits; what is to hold is checked after each tick."""
        for _ in range(ticks):
            self.now += 1
            self.neighbour.warp()
            what()

    def until(self, tick, *what):
        """Ticks up to the one given; what is to hold is checked after each."""
        while self.now < tick:
            self.tick()
            for check in what:
                check()

    def equal(self, what, found, expected):
        """A check that names the tick."""
        self.checks.equal(f"tick {self.now}: {what}", found, expected)

    def trunks(self):
        """For each aggregator of ours that has any, the ports that distribute on it."""
        reports = {number: self.switch.aggregator(number).distributing for number in self.switch.ports}
        return {number: ports for number, ports in reports.items() if ports}

    def theirs(self):
        """The ports of ours whose link the neighbour uses."""
        members = self.neighbour.members()
        return {port for port, name in self.cables.items() if members[name].carries()}

    def theirs_stays(self):
        """A check: the neighbour says of each link what it says now, in every word."""
        def says():
            return {name: vars(member) for name, member in self.neighbour.members().items()}
        before = says()
        return lambda: self.equal("what the neighbour says of its links", says(), before)

    def ours_is(self, trunks):
        """A check: which ports of ours distribute, on which aggregator."""
        return lambda: self.equal("our distributing ports", self.trunks(), trunks)

    def theirs_is(self, ports):
        """A check: which links the neighbour uses."""
        return lambda: self.equal("links that the neighbour uses", self.theirs(), ports)

    def theirs_follows(self):
        """A check: the neighbour uses the links on which we say Synchronization, also where we do not say Collecting or do not name it."""
        said = {port for port in BOTH if self.switch.actor(port).has("synchronization")}
        self.equal("links that the neighbour uses", self.theirs(), said)

    def names(self, *expected):
        """A check: what the reports say of ports, where today's library is asked."""
        for said in expected if self.switch.is_todays else ():
            self.equal("said", self.switch.why(said.port) if isinstance(said, Why) else self.switch.apart(said.first, said.second), said)

    def why_is(self, port, cause):
        """A check: the cause of a port, one that stands for itself."""
        return lambda: self.names(Why(port, cause))

    def waits(self, port, until):
        """A check: a port waits until that tick."""
        return lambda: self.names(Why(port, WAITS, 0, until - self.now))

    def apart_by(self, reasons):
        """A check: why the ports of the two links are apart, or that they are not."""
        return lambda: self.names(Apart(FIRST, SECOND, reasons))

    def lags(self, port, up=0):
        """A check: the neighbour does not hear us on this link, up since that tick or before. Where we hear it, it is not in sync with us; but it speaks
        seldom then, is silent in between, and each time that it was given up the port waits anew."""
        def check():
            silent = self.heard[port] + SHORT if self.heard[port] >= up else up
            waits = self.anew.get(port, -WAIT) + WAIT
            if self.now >= silent + SHORT:
                self.names(Why(port, IS_DEFAULTED), Apart(FIRST, SECOND, given_up(port)))
            elif self.now >= silent:
                self.names(Why(port, IS_EXPIRED), Apart(FIRST, SECOND, 0))
            else:
                self.names(Why(port, WAITS, 0, waits - self.now) if self.now < waits else Why(port, OUT_OF_SYNC), Apart(FIRST, SECOND, 0))
        return check

    def both_carry(self):
        """A check: nothing is to be named. Both ports carry, in one group."""
        self.names(Why(FIRST, CARRIES), Why(SECOND, CARRIES), Apart(FIRST, SECOND, 0))

    def carries(self, port):
        """A check: this link is in use at both ends, whatever the other does."""
        return lambda: self.equal(f"link of port {port} in use", (port in self.trunks().get(FIRST, set()), port in self.theirs()), (True, True))

    def young(self):
        """The ports that heard the neighbour within the short timeout."""
        return {port for port in BOTH if self.now - self.heard[port] < SHORT}

    def receives(self, port, state):
        """A check: the receive state of a port."""
        return lambda: self.equal(f"receive state of port {port}", self.switch.port(port).receive, state)

    def monitors(self, port, since, counted):
        """A check: the partner's monitor of a port has run since that tick, or waits for a link, and it churns after a minute; ours never does."""
        def check():
            record = self.switch.port(port)
            ran = self.now - since if record.link else 0
            found = record.partner_churn, record.partner_churn_timer, record.partner_churn_count
            self.equal(f"partner's monitor of port {port}", found, (CHURN_MONITOR, MINUTE - ran, counted) if ran < MINUTE else (CHURN, 0, counted + 1))
            self.equal(f"our monitor of port {port} churns", (record.actor_churn == CHURN, record.actor_churn_count), (False, 0))
        return check

    def status(self, port, word):
        """A check: what the neighbour says of its member at a port's link."""
        return lambda: self.equal(f"neighbour's status of port {port}", self.neighbour.members()[self.cables[port]].status.split()[0], word)

    def ask(self, port, ticks):
        """A Marker is asked for and goes to the neighbour. Gives a check: it is awaited until its last tick, and has timed out then."""
        before, begin = self.switch.port(port), self.now
        answer, frame = self.switch.ask(port, ticks)
        self.equal(f"answer to an ask on port {port}", answer, DONE)
        if answer == DONE:
            self.neighbour.send(self.cables[port], frame)

        def check():
            left, record = begin + ticks - self.now, self.switch.port(port)
            found = record.marker, record.marker_timer, record.marker_number
            self.equal(f"outcome on port {port}", found, (AWAITING, left, before.marker_number + 1) if left > 0 else (TIMED_OUT, 0, before.marker_number + 1))
        check()
        return check


def missing(world):
    """What is missing for a trunk of both links, at either end; nothing where it stands."""
    members = world.neighbour.members()
    for port, name in world.cables.items():
        record, member = world.switch.port(port), members[name]
        if not member.carries():
            yield f"{name} is {member.status}, may_enable {member.may_enable}, enabled {member.enabled}"
        if record.partner != member.actor:
            yield f"port {port} holds {record.partner}, but {name} is {member.actor}"
        if member.partner != world.switch.actor(port):
            yield f"{name} holds {member.partner}, but port {port} is {world.switch.actor(port)}"
        if record.partner != Block(SYSTEM_PRIORITY, SYSTEM, KEY, MEMBERS[name][1], MEMBERS[name][0], 0x3f):
            yield f"port {port} holds {record.partner}"
        if (record.actor_churn, record.partner_churn) != (NO_CHURN, NO_CHURN):
            yield f"port {port} has churn states {record.actor_churn}, {record.partner_churn}"
    report = world.switch.aggregator(FIRST)
    if report != Aggregator(BOTH, BOTH, BOTH, 2, FIRST):
        yield f"aggregator {FIRST}: {report}"


def stands(world):
    """A check: a trunk of both links, at both ends, and each end holds what the other says of itself."""
    world.equal("missing for a trunk", list(missing(world)), [])


def forms(world):
    """Both links come up and are heard at once: Ready after the wait, and then a trunk."""
    for port in BOTH:
        world.switch.line(port, up=True, full=True)
    world.settle()
    world.names(Why(1, LINK_DOWN), Why(3, LINK_DOWN))
    world.until(WAIT - 1, world.ours_is({}), world.theirs_is(set()), world.waits(FIRST, WAIT), world.waits(SECOND, WAIT), world.apart_by(0))
    world.until(WAIT, world.ours_is({FIRST: BOTH}), world.theirs_is(BOTH), world.both_carry)
    return comes_back(world)


def tally(world):
    """For each link: frames that we sent, frames that came, and frames that the neighbour took and found bad."""
    return [(world.sent[port], world.came[port], *world.neighbour.counts(name)) for port, name in world.cables.items()]


def lasts(world, ticks=100, *what):
    """For ten seconds, or as long as is said, nothing changes, each end sends once a second, as the other's short Timeout asks, and the neighbour takes
    every frame."""
    before, each = tally(world), ticks // FAST
    world.until(world.now + ticks, world.ours_is({FIRST: BOTH}), world.theirs_is(BOTH), world.both_carry, *what)
    for (sent, came, taken, _), counted in zip(before, tally(world), strict=True):
        world.equal("frames sent, come, taken by the neighbour, found bad by it", counted, (sent + each, came + each, taken + each, 0))
    return comes_back(world)


def changed(world, change, pause):
    """Our switch stands still for a while and is changed between two ticks. Gives a check, made meanwhile too: the neighbour says what it said before."""
    stays = world.theirs_stays()
    world.stand_still(pause, stays)
    change()
    world.settle()
    return stays


def moved(world, move, pause=0):
    """The table goes to another library, which goes on with it: for 30 seconds the neighbour notices nothing, and we send nothing more."""
    sent = dict(world.sent)
    stays = changed(world, move, pause)
    world.equal("frames of ours before the next tick", world.sent, sent)
    return lasts(world, 300, stays)


def comes_back(world, *what):
    """A trunk of both links stands again soon; after how many ticks. What is to hold meanwhile is checked after each."""
    begin = world.now
    while any(missing(world)) and world.now < begin + SOON:
        world.until(world.now + 1, *what)
    stands(world)
    return world.now - begin


def cut(world, port):
    """A link goes down at both ends: the other carries without a break, also when it comes back."""
    name, stays = world.cables[port], other(port)
    world.switch.line(port, up=False, full=True)
    world.neighbour.up(name, False)
    world.settle()
    named = world.ours_is({FIRST: {stays}}), world.why_is(port, LINK_DOWN), world.why_is(stays, CARRIES), world.apart_by(0)
    for check in named:
        check()
    world.until(world.now + 2 * SHORT + SOON, world.theirs_is({stays}), *named)
    world.switch.line(port, up=True, full=True)
    world.neighbour.up(name, True)
    return comes_back(world, world.carries(stays))


def silence_on_second(world):
    """The second link keeps its line, and nothing comes: EXPIRED, then DEFAULTED, and the first carries without a break."""
    world.deaf = {SECOND}
    last = world.heard[SECOND]
    alone = world.ours_is({FIRST: {FIRST}}), world.why_is(FIRST, CARRIES), world.theirs_follows
    world.until(last + SHORT - 1, world.receives(SECOND, CURRENT), world.ours_is({FIRST: BOTH}), world.both_carry)
    world.until(last + 2 * SHORT - 1, world.receives(SECOND, EXPIRED), world.why_is(SECOND, IS_EXPIRED), world.apart_by(0), *alone)
    world.until(last + 2 * SHORT + SOON, world.receives(SECOND, DEFAULTED), world.why_is(SECOND, IS_DEFAULTED), world.apart_by(given_up(SECOND)), *alone)
    world.deaf = set()
    return comes_back(world)


def silence_on_first(world):
    """The same on the first link: when it is given up, the second moves to its own aggregator and waits (docs/GUIDE-STEWARD.md)."""
    world.deaf = {FIRST}
    last = world.heard[FIRST]
    moves = last + 2 * SHORT
    silent, gone = (world.receives(FIRST, EXPIRED), world.why_is(FIRST, IS_EXPIRED)), (world.receives(FIRST, DEFAULTED), world.why_is(FIRST, IS_DEFAULTED))
    world.until(last + SHORT - 1, world.receives(FIRST, CURRENT), world.ours_is({FIRST: BOTH}), world.both_carry)
    world.until(moves - 1, *silent, world.ours_is({FIRST: {SECOND}}), world.why_is(SECOND, CARRIES), world.apart_by(0))
    world.until(moves + WAIT - 1, *gone, world.ours_is({}), world.waits(SECOND, moves + WAIT), world.apart_by(given_up(FIRST)))
    world.until(moves + WAIT + SOON, *gone, world.ours_is({SECOND: {SECOND}}), world.why_is(SECOND, CARRIES), world.theirs_follows)
    world.deaf = set()
    return comes_back(world)


def unheard(world):
    """Nothing of ours reaches the neighbour on the second link: it expires and gives us up in the same times."""
    world.lost = {SECOND}
    last = world.said[SECOND]
    world.until(last + SHORT - 1, world.status(SECOND, "current"), world.ours_is({FIRST: BOTH}), world.both_carry)
    world.until(last + 2 * SHORT - 1, world.status(SECOND, "expired"), world.ours_is({FIRST: BOTH}), world.theirs_is({FIRST}), world.both_carry)
    alone = world.status(SECOND, "defaulted"), world.ours_is({FIRST: {FIRST}}), world.theirs_is({FIRST}), world.why_is(FIRST, CARRIES), world.lags(SECOND)
    world.until(last + 2 * SHORT, world.why_is(SECOND, OUT_OF_SYNC), *alone)
    world.until(last + 2 * SHORT + SOON, *alone)
    world.lost = set()
    return comes_back(world)


def never_hears(world):
    """The neighbour gives us up on the second link and never hears us again: a minute later the partner's monitor churns, and once. The link falls,
    which ends that and holds the minute; it comes up, still unheard, and a minute later the monitor churns once more."""
    name, counted = world.cables[SECOND], world.switch.port(SECOND).partner_churn_count
    alone = world.ours_is({FIRST: {FIRST}}), world.why_is(FIRST, CARRIES)
    world.lost = {SECOND}
    since = world.said[SECOND] + 2 * SHORT
    world.until(since - 1, world.ours_is({FIRST: BOTH}), world.both_carry)
    world.until(since + MINUTE + SOON, world.monitors(SECOND, since, counted), world.lags(SECOND), *alone)
    world.switch.line(SECOND, up=False, full=True)
    world.neighbour.up(name, False)
    world.until(world.now + SOON, world.monitors(SECOND, world.now, counted + 1), world.why_is(SECOND, LINK_DOWN), *alone)
    world.switch.line(SECOND, up=True, full=True)
    world.neighbour.up(name, True)
    world.until(world.now + MINUTE + SOON, world.monitors(SECOND, world.now, counted + 1), world.lags(SECOND, world.now), *alone)
    world.lost = set()
    ticks = comes_back(world)
    world.equal("what was counted", world.switch.port(SECOND).partner_churn_count, counted + 2)
    return ticks


def long_timeout(world):
    """Our second port takes the long Timeout: the neighbour sends every 30 seconds, and silence counts from 90."""
    world.switch.set(SECOND, SETTINGS._replace(timeout=False))
    world.settle()
    came = []
    while len(came) < 3 and world.now < world.heard[SECOND] + 2 * SLOW:
        world.tick()
        if world.heard[SECOND] == world.now:
            came.append(world.now)
    world.equal("pace of the neighbour", came[2] - came[1], SLOW)
    world.deaf = {SECOND}
    last = world.heard[SECOND]
    world.until(last + LONG - 1, world.receives(SECOND, CURRENT), world.ours_is({FIRST: BOTH}), world.both_carry)
    world.until(last + LONG + SHORT - 1, world.receives(SECOND, EXPIRED), world.ours_is({FIRST: {FIRST}}), world.why_is(SECOND, IS_EXPIRED))
    world.until(last + LONG + SHORT + 1, world.receives(SECOND, DEFAULTED), world.ours_is({FIRST: {FIRST}}), world.why_is(SECOND, IS_DEFAULTED))
    world.deaf = set()
    world.switch.set(SECOND, SETTINGS)
    return comes_back(world)


def passive(world):
    """Our ports turn passive: the neighbour is active, so the trunk stands and both go on sending."""
    for port in BOTH:
        world.switch.set(port, SETTINGS._replace(activity=False))
    world.settle()
    lasts(world)
    for port in BOTH:
        world.switch.set(port, SETTINGS)
    return comes_back(world)


def swapped(world):
    """The two cables change places, without a line going down: each port hears another partner and waits, once it has heard it."""
    begin = world.now
    world.cables = {port: world.cables[other(port)] for port in world.cables}

    def named():
        for port in BOTH:
            ready = world.anew[port] + WAIT if world.anew[port] > begin else world.now
            world.names(Why(port, WAITS, 0, ready - world.now) if world.now < ready else Why(port, CARRIES), Apart(FIRST, SECOND, 0))
    return comes_back(world, named)


def one_after_the_other(world):
    """Both links are silent until they are given up. Then the first is heard, and after it the second: the first waits for it."""
    world.deaf = BOTH
    world.until(max(world.heard.values()) + 2 * SHORT, lambda: ages(world))
    world.deaf, begin = {SECOND}, world.now
    while world.heard[FIRST] <= begin and world.now < begin + FAST:
        world.tick()
    world.until(world.now + 1)
    world.deaf = set()
    while world.heard[SECOND] <= begin and world.now < begin + 2 * FAST:
        world.until(world.now + 1, world.waits(FIRST, world.anew[FIRST] + WAIT))
    first, second = world.anew[FIRST] + WAIT, world.anew[SECOND] + WAIT
    world.equal("ticks from one to the other", second - first, FAST)
    world.until(first - 1, world.waits(FIRST, first), world.waits(SECOND, second), world.apart_by(0))
    world.until(second - 1, lambda: world.names(Why(FIRST, HELD_BACK, SECOND, second - world.now)), world.waits(SECOND, second), world.ours_is({}))
    world.until(second, world.both_carry)
    return comes_back(world)


def stays_alone(world):
    """Our second port is set to stay alone: it waits, and then both links carry and are no trunk."""
    world.switch.set(SECOND, SETTINGS._replace(aggregation=False))
    world.settle()
    ready, apart = world.now + WAIT, (world.why_is(FIRST, CARRIES), world.apart_by(SECOND_INDIVIDUAL))
    world.until(ready - 1, world.ours_is({FIRST: {FIRST}}), world.waits(SECOND, ready), *apart)
    world.until(ready + SOON, world.ours_is({FIRST: {FIRST}, SECOND: {SECOND}}), world.theirs_is(BOTH), world.why_is(SECOND, CARRIES), *apart)
    world.switch.set(SECOND, SETTINGS)
    return comes_back(world)


def half_duplex(world):
    """Our second port falls back to half duplex: LACP is off there, and what the neighbour says is not heard."""
    world.switch.line(SECOND, up=True, full=False)
    world.settle()
    named = world.why_is(SECOND, HALF_DUPLEX), world.why_is(FIRST, CARRIES), world.apart_by(given_up(SECOND))
    world.until(world.now + 2 * SHORT + SOON, world.ours_is({FIRST: {FIRST}}), *named)
    world.switch.line(SECOND, up=True, full=True)
    return comes_back(world)


def crash(world):
    """The neighbour crashes, its lines stay up; it is given up on both ports, starts again much later, and the trunk comes back."""
    world.neighbour.crash()
    world.until(world.now + 3 * SHORT, lambda: ages(world))
    world.neighbour.begin()
    return comes_back(world)


def ages(world):
    """A check: each port's receive state is that of its silence, and so is its cause; it distributes while that is CURRENT."""
    for port in BOTH:
        silent = world.now - world.heard[port]
        state, cause = (CURRENT, CARRIES) if silent < SHORT else (EXPIRED, IS_EXPIRED) if silent < 2 * SHORT else (DEFAULTED, IS_DEFAULTED)
        world.receives(port, state)()
        world.names(Why(port, cause))
    world.ours_is({FIRST: world.young()} if world.young() else {})()


def unanswered(world):
    """Markers of ours on both links: the neighbour knows them for Markers and answers none, so each times out at its last tick, and the trunk stands. One
    that is awaited when its link falls is cancelled; the other is awaited on."""
    first, second = world.cables[FIRST], world.cables[SECOND]
    before = {name: world.neighbour.markers(name) for name in (first, second)}
    standing = world.ours_is({FIRST: BOTH}), world.theirs_is(BOTH)
    for ticks in (1, 2, FAST, 3 * FAST):
        checks = world.ask(FIRST, ticks), world.ask(SECOND, ticks + 1)
        world.equal("answer to a second ask", world.switch.ask(FIRST, ticks), (ALREADY_AWAITING, b""))
        world.until(world.now + ticks + 1, *checks, *standing)
    checks = world.ask(FIRST, MINUTE), world.ask(SECOND, MINUTE)
    world.until(world.now + FAST, *checks, *standing)
    world.switch.line(SECOND, up=False, full=True)
    world.neighbour.up(second, False)
    world.settle()
    world.names(Why(FIRST, CARRIES), Why(SECOND, LINK_DOWN))
    world.equal("outcome of a link that fell", world.switch.port(SECOND)[-3:], (CANCELLED, 0, world.switch.port(FIRST).marker_number))
    world.equal("answer to an ask without a link", world.switch.ask(SECOND, 1), (NOT_DISTRIBUTING, b""))
    world.until(world.now + FAST, checks[0])
    world.switch.line(SECOND, up=True, full=True)
    world.neighbour.up(second, True)
    world.until(world.now + MINUTE - 2 * FAST, checks[0])
    world.equal("outcome on port 1, which never asked", world.switch.port(1)[-3:], (NEVER_ASKED, 0, 0))
    for name in (first, second):
        world.equal("Markers that the neighbour counted", world.neighbour.markers(name), before[name] + 5)
    return comes_back(world)


def quick_crash(world):
    """The neighbour crashes and starts again before we can miss it: what it says first does not name us, so it is not in sync with us."""
    world.neighbour.crash()
    world.neighbour.begin()
    ticks = comes_back(world)
    for port in BOTH:
        said = [said for _, said in world.news if said.startswith(f"Port {port} ")]
        world.equal("what was said", said, [str(Why(port, OUT_OF_SYNC)), str(Why(port, CARRIES))])
    return ticks


PARTS = (
    ("both links come up", forms),
    ("ten seconds", lasts),
    ("the first link is cut", lambda world: cut(world, FIRST)),
    ("the second link is cut", lambda world: cut(world, SECOND)),
    ("the second link is silent", silence_on_second),
    ("the first link is silent", silence_on_first),
    ("the neighbour hears nothing on the second link", unheard),
    ("the neighbour never hears us on the second link", never_hears),
    ("the second port has the long Timeout", long_timeout),
    ("our ports are passive", passive),
    ("the cables are swapped", swapped),
    ("both links are silent, and heard again one after the other", one_after_the_other),
    ("our second port stays alone", stays_alone),
    ("our second port is at half duplex", half_duplex),
    ("the neighbour crashes for a while", crash),
    ("the neighbour crashes and is back at once", quick_crash),
    ("the neighbour answers no Markers", unanswered),
)

NEW_FIRMWARE = (
    ("both links come up at a switch with a library of before", forms),
    ("its table goes to today's", lambda world: moved(world, world.switch.forward)),
    ("the second link is cut", lambda world: cut(world, SECOND)),
    ("its table goes back", lambda world: moved(world, world.switch.back)),
    ("the first link is silent", silence_on_first),
    ("it stands still, and its table goes to today's", lambda world: moved(world, world.switch.forward, PAUSE)),
    ("it stands still, and its table goes back", lambda world: moved(world, world.switch.back, PAUSE)),
)


def all_parts(world, parts):
    """These parts, one after the other."""
    print(f"before any frame: negotiated {world.neighbour.negotiated()}, in use {world.theirs() or 'nothing'}")
    for name, part in parts:
        failed, begin, world.news = world.checks.failed, world.now, []
        ticks = part(world)
        print(f"{name}: {'right' if world.checks.failed == failed else 'WRONG'}; ticks from its end to a trunk of both links: {ticks}", flush=True)
        for tick, said in world.news:
            print(f"  {tick - begin}: {said}")


@contextmanager
def between(command, checks):
    """A world of a switch and a neighbour that are new."""
    with tempfile.TemporaryDirectory(prefix="peers.") as folder, Neighbour(folder) as neighbour, Captured(command) as switch:
        yield World(switch, neighbour, checks)


def never_answers(command):
    """The first part on a switch that never sends: whether the check fails, and no link is in use at either end for ten seconds more."""
    checks = Checks(quiet=True)
    with between([*command, "--mute"], checks) as world:
        forms(world)
        causes = [world.switch.why(port) for port in (FIRST, SECOND)]
        for line in (*causes, *missing(world)):
            print(f"  a switch that never sends: {line}")
        in_use = []
        world.until(world.now + 100, lambda: in_use.append(world.theirs() or world.trunks()))
        return checks.failed > 0 and not any(in_use) and causes == [Why(FIRST, OUT_OF_SYNC), Why(SECOND, OUT_OF_SYNC)]


def starts_anew(world):
    """New firmware that knows of no move: it starts its table, and tells it of the links."""
    world.switch.start(PORTS, OURS, SETTINGS)
    for port in BOTH:
        world.switch.line(port, up=True, full=True)


def is_noticed(command, change, pause):
    """Whether the neighbour says something else within three seconds, after a trunk stood, of a switch that is changed so and stands still for so long."""
    checks = Checks(quiet=True)
    with between([*command, "--yesterday"], checks) as world:
        forms(world)
        stood = checks.failed == 0
        stays = changed(world, lambda: change(world), pause)
        world.until(world.now + SHORT, stays)
        return stood and checks.failed > 0


def names_wrongly(command):
    """Whether each of some parts finds it out if, after a trunk stood, a switch says of every port that does not carry that it waits, and of no two ports that
    they are apart."""
    checks, found = Checks(quiet=True), []
    with between([*command, "--blind"], checks) as world:
        forms(world)
        stood = not any(missing(world))
        for part in (lambda world: cut(world, SECOND), silence_on_second, unheard, stays_alone, half_duplex):
            failed = checks.failed
            part(world)
            found.append(checks.failed > failed)
    return stood and all(found)


def counters_hold(checks, switch):
    """Each port's counters are what tshark counts in a capture of what passed it; the capture's frames, each with its counter."""
    switch.pages()
    return hold_counters(checks, switch, CAPTURES / "peers.pcap")


def misses_frames(command):
    """Whether a capture that misses an LACPDU either way, of ten seconds of a trunk, is told from one that holds with the counters."""
    checks = Checks(quiet=True)
    with between(command, checks) as world:
        forms(world)
        lasts(world)
        missed, noticed = left_out(world.switch, counters_hold(checks, world.switch), CAPTURES / "misses.pcap")
        return checks.failed == 0 and missed == noticed == 2


# A neighbour that answers Markers: a second switch of ours.

class Pair:
    """Two switches of ours, the ports FIRST and SECOND of one joined to those of the other."""

    def __init__(self, ours, theirs, checks):
        self.ours, self.theirs, self.checks, self.now = ours, theirs, checks, 0
        self.held = None  # Responses to us that wait, where they are held back
        self.deaf, self.back = set(), {}  # ports of ours to which nothing comes; ports of ours that are joined to each other
        ours.start(PORTS, OURS, SETTINGS)
        theirs.start(PORTS, OURS._replace(address=SYSTEM), SETTINGS._replace(key=KEY))
        for switch in (ours, theirs):
            for port in BOTH:
                switch.line(port, up=True, full=True)
        self.settle()

    def deliver(self, to, port, frame):
        """A frame on its way, and a Response to it; the answer it gets."""
        answer, response = to.receive(port, frame)
        if response and self.held is not None and to is self.theirs:
            self.held.append((port, response))
        elif response:
            self.deliver(self.theirs if to is self.ours else self.ours, port, response)
        return answer

    def settle(self):
        """Frames go both ways until none is due."""
        while due := [(one, other, port) for one, other in ((self.ours, self.theirs), (self.theirs, self.ours)) for port in one.due()]:
            for one, other, port in due:
                answer, frame = one.fetch(port)
                self.checks.equal("answer to a fetch of what is due", answer, DONE)
                if port in self.back:
                    self.checks.equal("answer to an LACPDU of our own", self.deliver(self.ours, self.back[port], frame), DONE)
                elif other is self.theirs or port not in self.deaf:
                    self.checks.equal("answer to an LACPDU", self.deliver(other, port, frame), DONE)

    def ticks(self, count):
        """Time passes at both ends."""
        for _ in range(count):
            self.now += 1
            self.ours.tick()
            self.theirs.tick()
            self.settle()

    def ask(self, port, ticks):
        """A Marker of ours, which goes to the other end and is answered there."""
        answer, frame = self.ours.ask(port, ticks)
        self.equal("answer to an ask", answer, DONE)
        self.equal("answer to a Marker", self.deliver(self.theirs, port, frame), DONE)

    def let_come(self, expected):
        """The Responses that were held back come in."""
        held, self.held = self.held, None
        for port, response in held:
            self.equal("answer to a Response", self.deliver(self.ours, port, response), expected)

    def equal(self, what, found, expected):
        """A check that names the tick."""
        self.checks.equal(f"tick {self.now} of two of ours: {what}", found, expected)

    def says(self, *expected):
        """A check: what the reports say of ports of ours, which is printed."""
        for said in expected:
            found = self.ours.why(said.port) if isinstance(said, Why) else self.ours.apart(said.first, said.second)
            self.equal("said", found, said)
            print(f"  {self.now}: {found}")

    def outcome_is(self, port, *expected):
        """A check: outcome, timer and next number of a port of ours."""
        self.equal(f"outcome on port {port}", self.ours.port(port)[-3:], expected)


def answered_in_time(pair):
    """The other end answers each Marker: at once; at the last moment before the last tick; and a moment after it, too late. A trunk carries throughout."""
    pair.ticks(SOON)
    pair.equal("ports that distribute", pair.ours.aggregator(FIRST).distributing, BOTH)
    pair.ask(FIRST, 1)
    pair.outcome_is(FIRST, ANSWERED, 0, 1)
    for number, late in enumerate((0, 1, 5, FAST - 1), start=1):
        pair.held = []
        pair.ask(FIRST, FAST)
        pair.ticks(late)
        pair.outcome_is(FIRST, AWAITING, FAST - late, number + 1)
        pair.let_come(DONE)
        pair.outcome_is(FIRST, ANSWERED, 0, number + 1)
    pair.held = []
    pair.ask(SECOND, FAST)
    pair.ticks(FAST)
    pair.outcome_is(SECOND, TIMED_OUT, 0, 1)
    pair.let_come(RESPONSE)
    pair.outcome_is(SECOND, TIMED_OUT, 0, 1)
    pair.ticks(MINUTE)
    pair.outcome_is(FIRST, ANSWERED, 0, 5)
    pair.equal("ports that distribute", pair.ours.aggregator(FIRST).distributing, BOTH)


def looks_the_same(pair):
    """Three ways in which the second link leaves the trunk and goes on carrying, as far as one can see from outside: the other end's key is another one; the
    other end's port stays alone; and nothing comes from it, and ours carries on its settings. Each has its sentence."""
    theirs, ours = SETTINGS._replace(key=KEY), SETTINGS._replace(partner=NOBODY._replace(state=bit("timeout") | bit("synchronization") | bit("collecting")))
    for settings, reasons in ((theirs._replace(key=KEY + 1), PARTNER_KEYS_DIFFER), (theirs._replace(aggregation=False), SECOND_PARTNER_INDIVIDUAL)):
        pair.theirs.set(SECOND, settings)
        pair.settle()
        pair.says(Why(SECOND, WAITS, 0, WAIT), Apart(FIRST, SECOND, reasons))
        pair.ticks(SOON)
        pair.says(Why(FIRST, CARRIES), Why(SECOND, CARRIES), Apart(FIRST, SECOND, reasons))
        pair.theirs.set(SECOND, theirs)
        pair.settle()
        pair.ticks(SOON)
        pair.says(Why(FIRST, CARRIES), Why(SECOND, CARRIES), Apart(FIRST, SECOND, 0))
    pair.ours.set(SECOND, ours)
    pair.settle()
    pair.says(Why(SECOND, CARRIES), Apart(FIRST, SECOND, 0))  # a default block moves nobody whose partner is heard
    pair.deaf = {SECOND}
    pair.ticks(2 * SHORT - FAST)
    pair.says(Why(SECOND, IS_EXPIRED), Apart(FIRST, SECOND, 0))
    pair.ticks(FAST + WAIT)
    pair.says(Why(FIRST, CARRIES), Why(SECOND, CARRIES_BY_DEFAULT), Apart(FIRST, SECOND, given_up(SECOND)))
    pair.deaf = set()
    pair.ours.set(SECOND, SETTINGS)
    pair.ticks(SOON)
    pair.says(Why(FIRST, CARRIES), Why(SECOND, CARRIES), Apart(FIRST, SECOND, 0))


def leads_back(pair):
    """A cable between ports 1 and 3 of ours: both are told so, and neither carries with the other."""
    pair.back = {1: 3, 3: 1}
    for port in pair.back:
        pair.ours.line(port, up=True, full=True)
    pair.settle()
    looped = Apart(1, 3, FIRST_LOOPED | SECOND_LOOPED)
    pair.says(Why(1, WAITS, 0, WAIT), Why(3, WAITS, 0, WAIT), looped)
    pair.ticks(SOON)
    pair.says(Why(1, CARRIES), Why(3, CARRIES), looped)
    pair.says(Apart(1, FIRST, FIRST_LOOPED | PARTNER_SYSTEMS_DIFFER | PARTNER_KEYS_DIFFER), Apart(FIRST, SECOND, 0))


@contextmanager
def both_ours(command, checks):
    """Two switches of ours that are new."""
    with Captured(command) as ours, Captured(command) as theirs:
        yield Pair(ours, theirs, checks)


def loses_responses(command):
    """Whether the check of a neighbour that answers fails where its Responses get lost."""
    checks = Checks(quiet=True)
    with both_ours(command, checks) as pair:
        pair.ticks(SOON)
        stood = checks.failed == 0
        pair.held = []
        pair.ask(FIRST, FAST)
        pair.outcome_is(FIRST, ANSWERED, 0, 1)
        return stood and checks.failed == 1


# What must be found out, and how.
WRONG = (
    ("a switch that never sends", never_answers),
    ("new firmware that starts its table anew", lambda command: is_noticed(command, starts_anew, 0)),
    ("new firmware that takes three seconds", lambda command: is_noticed(command, lambda world: world.switch.forward(), SHORT)),
    ("a switch that names wrong causes", names_wrongly),
    ("a capture that misses frames", misses_frames),
    ("Responses that get lost", loses_responses),
)


def show_counted(every):
    """How many frames there were for each counter."""
    print("counted, by tshark and by the ports:", ", ".join(f"{number} {name}" for name, number in sorted(by_name(every).items())))


def peers(command):
    """Everything, and the last line; whether all is well."""
    checks, ticks, ours, theirs = Checks(), 0, 0, 0
    for words, parts in ((command, PARTS), ([*command, "--yesterday"], NEW_FIRMWARE), ([*command, "--lately"], NEW_FIRMWARE)):
        with between(words, checks) as world:
            print(f"a switch of ours{''.join(words[len(command):]).replace('--', ', begun with the library of ')}, and Open vSwitch")
            all_parts(world, parts)
            show_counted(counters_hold(checks, world.switch))
            ticks, ours, theirs = ticks + world.now, ours + sum(world.sent.values()), theirs + sum(world.came.values())
    print(f"{ticks} ticks, {ours} frames of ours, {theirs} of the neighbour's")
    failed = checks.failed
    with both_ours(command, checks) as pair:
        answered_in_time(pair)
        looks_the_same(pair)
        leads_back(pair)
        for switch in (pair.ours, pair.theirs):
            show_counted(counters_hold(checks, switch))
    print(f"two switches of ours, of which one answers the other's Markers and leaves its trunk: {'right' if checks.failed == failed else 'WRONG'}")
    missed = [name for name, found in WRONG if not found(command)]
    print(f"peers: {checks.passed} checks passed, {checks.failed} failed;",
          f"NOT found out: {', '.join(missed)}" if missed else f"found out: {', '.join(name for name, _ in WRONG)}")
    return checks.failed == 0 and not missed


if __name__ == "__main__":
    run("peers", peers)
