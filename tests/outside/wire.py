"""Frames of the library as tshark reads them, and frames of scapy as the library reads them.

Tables are led through many situations. Every LACPDU, every Marker Response and every Marker that the library gives out goes into a capture, beside what
the port's record and the requester's Marker say it must be; tshark reads the capture, and each field must be that. What the tables hear is
built by scapy; what the records hold afterwards, and each answer, must be what document 01 says of the numbers that scapy was given. Responses to Markers of
ours are among it, right ones and such as have one bit wrong. All of both goes into another capture, and the counters of each port must be what tshark
counts there.

Then the same checks run on what is wrong: each bit of an LACPDU, of a Response and of a Marker flipped, one at a time, and a capture that misses frames.
They must find every one.
"""

import json
import random
from collections import Counter

from scapy.contrib.lacp import LACP, MarkerProtocol, SlowProtocol
from scapy.layers.l2 import Ether

from capture import CAPTURES, Captured, by_name, hold_counters, left_out, tshark, write_capture
from switch import (ALREADY_AWAITING, ANSWERED, AWAITING, BITS, CANCELLED, COLLECTING, CURRENT, DISTRIBUTING, DONE, FOREIGN, ILLEGAL,
                    LACP_OFF, NOBODY, NOT_COLLECTING, NOT_DISTRIBUTING, RESPONSE, SLOW_ADDRESS, TIMED_OUT, UNKNOWN, Block, Checks, Counters,
                    Settings, System, bit, run)

WHOLE = 124
PEER_ADDRESS = bytes.fromhex("02b1b2b3b4b5")
TOURS, STEPS = 60, 25
LONGEST_WAIT = 600
# The bits of what a Marker and its Response name: the requester's port, system and transaction.
REQUEST_BITS = 16 + 48 + 32
KINDS = {1: "an LACPDU", (2, 2): "a Response", (2, 1): "a Marker"}

# No octet comes twice in these, so that a swapped or shifted field shows.
OURS = System(0x1112, bytes.fromhex("212223242526"), 0x3132)
SETTINGS = Settings(bytes.fromhex("424344454647"), 0x5152, 0x6162, True, True, True, Block(0x7172, bytes.fromhex("818283848586"), 0x9192,
                                                                                          0xa1a2, 0xb1b2, 0x06))
REQUESTERS = ((0, bytes(6), 0), (0xffff, b"\xff" * 6, 0xffffffff), (0x2122, bytes.fromhex("313233343536"), 0x41424344))
THEIRS = Block(0xc1c2, bytes.fromhex("d1d2d3d4d5d6"), 0xe1e2, 0xf1f2, 0x0102, 0x3f)


def colons(octets):
    """Octets as tshark and scapy write them."""
    return octets.hex(":")


# What tshark must say of a frame.

def layers(source, subtype, name, fields):
    """The layers of a frame of ours, with nothing beside them: no remark, no malformed part."""
    return {
        "frame": {"frame.len": str(WHOLE), "frame.protocols": f"eth:ethertype:slow:{name}"},
        "eth": {"eth.dst": colons(SLOW_ADDRESS), "eth.src": colons(source), "eth.type": "0x8809"},
        "slow": {"slow.subtype": f"0x{subtype:02x}"},
        name: fields,
    }


def block_fields(side, block):
    """The fields of the actor's or the partner's block."""
    name = f"lacp.{side}"
    letters = "".join(letter if block.state >> place & 1 else "*" for place, letter in enumerate("ASGSCDFE"))
    return {
        f"{name}.sys_priority": str(block.system_priority), f"{name}.sysid": colons(block.system), f"{name}.key": str(block.key),
        f"{name}.port_priority": str(block.port_priority), f"{name}.port": str(block.port),
        f"{name}.state": f"0x{block.state:02x}", f"{name}.state_str": letters[::-1],
        f"{name}.state_tree": {f"{name}.state.{flag}": str(block.state >> place & 1) for place, flag in enumerate(BITS)},
        f"{name}.reserved": colons(bytes(3)),
    }


def lacpdu_layers(source, actor, partner, delay):
    """An LACPDU of ours."""
    return layers(source, 1, "lacp", {
        "lacp.version": "0x01", "lacp.tlv_type": ["0x01", "0x02", "0x03", "0x00"], "lacp.tlv_length": ["0x14", "0x14", "0x10", "0x00"],
        **block_fields("actor", actor), **block_fields("partner", partner),
        "lacp.collector.max_delay": str(delay), "lacp.coll_reserved": colons(bytes(12)), "lacp.pad": colons(bytes(50)),
    })


def marker_layers(kind, source, port, system, transaction):
    """A Marker of ours (1) or a Marker Response (2)."""
    return layers(source, 2, "marker", {
        "marker.version": "0x01", "marker.tlvType": [f"0x{kind:02x}", "0x00"], "marker.tlvLen": ["0x10", "0x00"],
        "marker.requesterPort": str(port), "marker.requesterSystem": colons(system), "marker.requesterTransId": str(transaction),
        "marker.requesterPad": "0", "marker.reserved": colons(bytes(90)),
    })


# Reading a capture.

def flat(tree):
    """The fields of a tree of fields, without the trees."""
    for name, value in tree.items():
        if isinstance(value, dict):
            yield from flat(value)
        else:
            yield name, value


def seen(packet):
    """The fields that tshark shows of a frame: all but the capture's own, and those that repeat an address."""
    parts = packet["_source"]["layers"]
    frame = {name: parts["frame"][name] for name in ("frame.len", "frame.protocols")}
    ethernet = {name: value for name, value in parts.get("eth", {}).items() if not name.endswith("_tree")}
    return dict(flat(parts | {"frame": frame, "eth": ethernet}))


def read_capture(path, frames):
    """For each frame the fields that tshark shows of it."""
    write_capture(path, frames)
    return [seen(packet) for packet in json.loads(tshark(path, "-T", "json", "--no-duplicate-keys"))]


def wrong_fields(found, expected):
    """The names of the fields in which two frames differ, also those that only one of them has."""
    return {name for name in found.keys() | expected.keys() if found.get(name) != expected.get(name)}


# Frames of scapy.

def scapy_frame(subtype, contents, destination=SLOW_ADDRESS, ethertype=0x8809):
    """The octets of a frame with these contents."""
    return bytes(Ether(dst=colons(destination), src=colons(PEER_ADDRESS), type=ethertype) / SlowProtocol(subtype=subtype) / contents)


def scapy_block(side, block):
    """A block as scapy's fields."""
    names = ("system_priority", "system", "key", "port_priority", "port_number", "state")
    values = block._replace(system=colons(block.system))
    return {f"{side}_{name}": value for name, value in zip(names, values, strict=True)}


def lacpdu(actor, partner, around=None, **changes):
    """An LACPDU that scapy builds."""
    fields = scapy_block("actor", actor) | scapy_block("partner", partner) | {"collector_max_delay": 0x1718} | changes
    return scapy_frame(contents=LACP(**fields), **({"subtype": 1} | (around or {})))


def marker(*requester, around=None, **changes):
    """A Marker that scapy builds, or what the changes make of it; of the last of REQUESTERS where none is named."""
    port, system, transaction = requester or REQUESTERS[-1]
    fields = {"marker_type": 1, "requester_port": port, "requester_system": colons(system), "requester_transaction_id": transaction}
    return scapy_frame(contents=MarkerProtocol(**(fields | changes)), **({"subtype": 2} | (around or {})))


def one_bit_wrong(place, port, system, transaction):
    """A requester with this bit flipped, counted from the end: transaction, system, port."""
    octets = (port << 80 | int.from_bytes(system, "big") << 32 | transaction) ^ 1 << place
    return octets >> 80, (octets >> 32 & (1 << 48) - 1).to_bytes(6, "big"), octets & 0xffffffff


# What a record must hold of a frame.

def recorded(actor, partner, own):
    """The partner block after an LACPDU (recordPDU, 43.4.9): its actor block, with Synchronization worked out anew."""
    agrees = partner[:5] == own[:5] and partner.has("aggregation") == own.has("aggregation")
    kept_up = actor.has("activity") or (own.has("activity") and partner.has("activity"))
    in_sync = actor.has("synchronization") and kept_up and (agrees or not actor.has("aggregation"))
    rest = actor.state & ~bit("synchronization")
    return actor._replace(state=rest | (bit("synchronization") if in_sync else 0))


class Tour:
    """A switch under test: what it sends is captured beside what it must be, what it hears is checked in its records."""

    def __init__(self, switch, checks):
        self.switch, self.checks = switch, checks
        self.frames, self.expected = [], []
        self.ends = Counter()  # how often a Marker of ours ended in each way

    def send(self):
        """Fetches what is due; the record at the fetch says what the frame must be, and keeps all but NTT and the ages."""
        for port in sorted(self.switch.due()):
            before, actor = self.switch.port(port), self.switch.actor(port)
            answer, frame = self.switch.fetch(port)
            self.checks.equal("answer to a fetch of what is due", answer, DONE)
            self.frames.append(frame)
            self.expected.append(lacpdu_layers(before.address, actor, before.partner, self.switch.system.delay))
            after = self.switch.port(port)
            self.checks.equal("record after a fetch", after, before._replace(ntt=0, ages=after.ages))

    def hear(self, port, actor, partner):
        """An LACPDU comes in: where the link is up and the duplex full its actor block is recorded, else nothing changes."""
        before, own = self.switch.port(port), self.switch.actor(port)
        answer = self.switch.receive(port, lacpdu(actor, partner))
        after = self.switch.port(port)
        if not (before.link and before.duplex):
            self.checks.equal("LACPDU without LACP", (answer, after), ((LACP_OFF, b""), before))
            return
        self.checks.equal("answer to an LACPDU", answer, (DONE, b""))
        for name, found, expected in zip(Block._fields, after.partner, recorded(actor, partner, own), strict=True):
            self.checks.equal(f"recorded {name}", found, expected)
        self.checks.equal("receive state", after.receive, CURRENT)
        self.checks.equal("current-while timer", after.current_while, 30 if own.has("timeout") else 900)
        self.checks.equal("Defaulted and Expired", after.state & (bit("defaulted") | bit("expired")), 0)

    def hear_marker(self, port, *requester):
        """A Marker comes in: a port that collects answers it, another does not, and no record changes."""
        before = self.switch.port(port)
        answer, response = self.switch.receive(port, marker(*requester))
        self.checks.equal("answer to a Marker", answer, DONE if before.mux in (COLLECTING, DISTRIBUTING) else NOT_COLLECTING)
        self.checks.equal("record after a Marker", self.switch.port(port), before)
        if answer == DONE:
            self.frames.append(response)
            self.expected.append(marker_layers(2, before.address, *requester))

    def ask(self, port, ticks):
        """A Marker is asked for: a port that distributes and awaits none gives it, with its record's next number."""
        before = self.switch.port(port)
        answer, frame = self.switch.ask(port, ticks)
        refusal = NOT_DISTRIBUTING if before.mux != DISTRIBUTING else ALREADY_AWAITING if before.marker == AWAITING else DONE
        self.checks.equal("answer to an ask", answer, refusal)
        if answer == DONE:
            self.frames.append(frame)
            self.expected.append(marker_layers(1, before.address, port, self.switch.system.address, before.marker_number))
            before = before._replace(marker=AWAITING, marker_timer=ticks, marker_number=(before.marker_number + 1) % 2**32)
        self.checks.equal("record after an ask", self.switch.port(port), before)

    def hear_response(self, port, requester, expected):
        """A Response comes in that scapy built for this requester: it is taken and ends the wait, or changes nothing."""
        before = self.switch.port(port)
        answer = self.switch.receive(port, marker(*requester, marker_type=2))
        self.checks.equal("answer to a Response", answer, (expected, b""))
        if expected == DONE:
            before = before._replace(marker=ANSWERED, marker_timer=0)
            self.ends[ANSWERED] += 1
        self.checks.equal("record after a Response", self.switch.port(port), before)

    def answer(self, port, wrong_bits):
        """Responses to the last Marker of a port, with each of these bits wrong, on another port, right, and once more: one is taken, if one is awaited."""
        record = self.switch.port(port)
        requester = port, self.switch.system.address, (record.marker_number - 1) % 2**32
        for place in wrong_bits:
            self.hear_response(port, one_bit_wrong(place, *requester), RESPONSE)
        for other in set(self.switch.ports) - {port}:
            self.hear_response(other, requester, RESPONSE)
        self.hear_response(port, requester, DONE if record.marker == AWAITING else RESPONSE)
        self.hear_response(port, requester, RESPONSE)

    def line(self, port, up, full):
        """Link and duplex: a Marker that is awaited is cancelled where the link was up and one of them changes."""
        before = self.switch.port(port)
        self.switch.line(port, up, full)
        ended = before.marker == AWAITING and before.link == 1 and (before.link, before.duplex) != (up, full)
        self.ends[CANCELLED] += ended
        after = self.switch.port(port)
        self.checks.equal("outcome after a line", (after.marker, after.marker_timer),
                          (CANCELLED, 0) if ended else (before.marker, before.marker_timer))

    def ticks(self, count):
        """Time passes, what is due is sent, and Markers time out."""
        before = {port: self.switch.port(port) for port in self.switch.ports}
        for _ in range(count):
            self.switch.tick()
            self.send()
        for port, record in before.items():
            left = max(record.marker_timer - count, 0)
            ended = record.marker == AWAITING and left == 0
            self.ends[TIMED_OUT] += ended
            outcome = TIMED_OUT if ended else record.marker
            after = self.switch.port(port)
            self.checks.equal("outcome after ticks", (after.marker, after.marker_timer, after.marker_number), (outcome, left, record.marker_number))


def bring_up(tour, actor):
    """One port from the start until it distributes, all fields distinct."""
    tour.switch.start(1, OURS, SETTINGS)
    tour.switch.line(1, up=True, full=True)
    tour.send()
    for _ in range(5):
        tour.hear(1, actor, tour.switch.actor(1))
        tour.ticks(10)
    tour.checks.equal("mux state", tour.switch.port(1).mux, DISTRIBUTING)


def walk(tour):
    """A port goes up, answers Markers, asks for some itself, to which Responses come with each bit wrong and then the right one, and hears nothing until it
    is defaulted."""
    bring_up(tour, THEIRS)
    for requester in REQUESTERS:
        tour.hear_marker(1, *requester)
    for _ in range(3):
        tour.ask(1, LONGEST_WAIT)
        tour.answer(1, range(REQUEST_BITS))
    tour.ticks(70)
    tour.hear_marker(1, *REQUESTERS[-1])
    tour.ask(1, 1)


def some_block(chance):
    """A random block, often with the lowest and highest numbers."""
    priority, key, port_priority, port = (chance.choice((0, 1, 0xff00, 0xffff, chance.getrandbits(16))) for _ in range(4))
    return Block(priority, chance.randbytes(6), key, port_priority, port, chance.getrandbits(8))


def some_settings(chance):
    """Random settings that a call accepts: Collecting of the default block is its Synchronization."""
    default = some_block(chance)
    both = bit("synchronization") | bit("collecting")
    default = default._replace(state=default.state | both if default.has("collecting") else default.state & ~both)
    flags = (chance.random() < 0.7 for _ in range(3))
    return Settings(chance.randbytes(6), chance.getrandbits(16), chance.getrandbits(16), *flags, default)


def random_step(tour, chance, friends):
    """One random event on a random port, a good LACPDU being the likeliest."""
    switch, port = tour.switch, chance.choice(tour.switch.ports)
    event = chance.choices(("good", "any", "marker", "ask", "answer", "ticks", "long", "line", "settings"), (8, 2, 3, 3, 3, 6, 1, 2, 1))[0]
    if event == "good":
        state = chance.choice((0x0f, 0x1f, 0x3f, 0x3d, 0x3e, 0x07))
        tour.hear(port, friends[port]._replace(state=state), switch.actor(port))
    elif event == "any":
        tour.hear(port, some_block(chance), some_block(chance))
    elif event == "marker":
        collecting = [other for other in switch.ports if switch.port(other).mux in (COLLECTING, DISTRIBUTING)]
        tour.hear_marker(chance.choice([port, *collecting]), chance.getrandbits(16), chance.randbytes(6), chance.getrandbits(32))
    elif event == "ask":
        distributing = [other for other in switch.ports if switch.port(other).mux == DISTRIBUTING]
        tour.ask(chance.choice([port, *distributing]), chance.choice((1, 5, 20, LONGEST_WAIT)))
    elif event == "answer":
        awaiting = [other for other in switch.ports if switch.port(other).marker == AWAITING]
        tour.answer(chance.choice([port, *awaiting]), chance.sample(range(REQUEST_BITS), 3))
    elif event == "ticks":
        tour.ticks(chance.randint(1, 25))
    elif event == "long":
        tour.ticks(chance.choice((60, 310)))
    elif event == "line":
        tour.line(port, up=chance.random() < 0.7, full=chance.random() < 0.7)
    else:
        switch.set(port, some_settings(chance))
    tour.send()


def random_tour(tour, chance):
    """A table with random settings through random events. The neighbour's ports share system and key, so that trunks form."""
    ports = chance.randint(1, 6)
    tour.switch.start(ports, System(chance.getrandbits(16), chance.randbytes(6), chance.getrandbits(16)), some_settings(chance))
    friend = some_block(chance)
    friends = {port: friend._replace(port=port + 100, port_priority=chance.getrandbits(16)) for port in tour.switch.ports}
    for port in tour.switch.ports:
        tour.switch.line(port, up=True, full=True)
    tour.send()
    for _ in range(STEPS):
        random_step(tour, chance, friends)


# Frames that are refused, or taken though they are odd.

def odd_frames():
    """A label, the frame, and document 01's answer on a port that distributes."""
    good, request = lacpdu(THEIRS, NOBODY), marker()
    for length in (0, 13):
        yield f"{length} octets", good[:length], FOREIGN
    for length in (14, 15, 123):
        yield f"LACPDU of {length} octets", good[:length], ILLEGAL
        yield f"Marker of {length} octets", request[:length], ILLEGAL
    for make in (lambda **how: lacpdu(THEIRS, NOBODY, **how), marker):
        yield "another destination", make(around={"destination": bytes.fromhex("0180c2000003")}), FOREIGN
        yield "another type", make(around={"ethertype": 0x8808}), UNKNOWN
    for subtype in range(256):
        if subtype not in (1, 2):
            yield f"subtype {subtype}", lacpdu(THEIRS, NOBODY, around={"subtype": subtype}), UNKNOWN if 3 <= subtype <= 10 else ILLEGAL
    for name, right in (("actor_length", 20), ("partner_length", 20), ("collector_length", 16)):
        for length in range(256):
            yield f"{name} {length}", lacpdu(THEIRS, NOBODY, **{name: length}), DONE if length == right else ILLEGAL
    for length in range(256):
        yield f"marker_length {length}", marker(marker_length=length), DONE if length == 16 else ILLEGAL
    for kind in range(256):
        yield f"Marker type {kind}", marker(marker_type=kind), {1: DONE, 2: RESPONSE}.get(kind, ILLEGAL)
    for name in ("version", "actor_type", "partner_type", "collector_type", "terminator_type", "terminator_length"):
        yield f"{name} 9", lacpdu(THEIRS, NOBODY, **{name: 9}), DONE
    for name, count in (("actor_reserved", 3), ("partner_reserved", 3), ("collector_reserved", 12), ("reserved", 50)):
        yield f"{name} not zero", lacpdu(THEIRS, NOBODY, **{name: b"\xff" * count}), DONE
    yield "LACPDU of 125 octets", good + b"\xff", DONE
    yield "Marker of 1500 octets", request + b"\xff" * (1500 - WHOLE), DONE


def hear_odd_frames(tour):
    """Each odd frame gets its answer; a refused one changes no record, and only a Marker is answered with a frame."""
    for label, frame, expected in odd_frames():
        bring_up_quietly(tour.switch)
        before = tour.switch.port(1)
        answer, response = tour.switch.receive(1, frame)
        tour.checks.equal(label, answer, expected)
        tour.checks.equal(f"{label}: a Response", len(response), WHOLE if answer == DONE and frame[14] == 2 else 0)
        if answer != DONE:
            tour.checks.equal(f"{label}: record", tour.switch.port(1), before)
        elif frame[14] == 1:
            tour.checks.equal(f"{label}: partner", tour.switch.port(1).partner, recorded(THEIRS, NOBODY, tour.switch.actor(1)))


def bring_up_quietly(switch):
    """A port that distributes, by way of a partner that is in sync by default."""
    switch.start(1, OURS, SETTINGS._replace(partner=THEIRS))
    switch.line(1, up=True, full=True)
    for _ in range(60):
        switch.tick()


# The check, and the check of the check.

def judge(checks, frames, expected):
    """Each field of each frame is one check."""
    found = read_capture(CAPTURES / "sent.pcap", frames)
    checks.equal("frames that tshark read", len(found), len(frames))
    for number, (fields, tree) in enumerate(zip(found, expected, strict=True), start=1):
        wanted = dict(flat(tree))
        for name in sorted(fields.keys() | wanted.keys()):
            checks.equal(f"frame {number}: {name}", fields.get(name), wanted.get(name))
    return found


def every_state_bit(checks, found):
    """Each of the 16 state bits was seen set and clear."""
    for side in ("actor", "partner"):
        for name in BITS:
            values = {fields.get(f"lacp.{side}.state.{name}") for fields in found} - {None}
            checks.equal(f"values seen of {side} {name}", values, {"0", "1"})


def flipped(frame):
    """The frame with each of its bits flipped in turn."""
    for place in range(8 * len(frame)):
        copy = bytearray(frame)
        copy[place // 8] ^= 1 << place % 8
        yield bytes(copy)


def kind_of(frame):
    """What a frame of ours is: the key of KINDS."""
    return 1 if frame[14] == 1 else (frame[14], frame[16])


def wrong_senders(frames, expected):
    """One LACPDU, one Response and one Marker with every bit flipped in turn: how many there are, and how many the check finds wrong."""
    last = {kind_of(frame): (frame, dict(flat(tree))) for frame, tree in zip(frames, expected, strict=True)}
    wanted = {kind: last[kind] for kind in KINDS}
    copies = [(copy, fields) for frame, fields in wanted.values() for copy in flipped(frame)]
    found = read_capture(CAPTURES / "wrong.pcap", [copy for copy, _ in copies])
    missed = [number for number, (fields, (_, right)) in enumerate(zip(found, copies, strict=True)) if not wrong_fields(fields, right)]
    for number in missed:
        print(f"not found: octet {number // 8 % WHOLE} bit {number % 8} of {list(KINDS.values())[number // (8 * WHOLE)]}")
    show_state_bits(found, *wanted[1])
    return len(copies), len(copies) - len(missed)


def show_state_bits(found, frame, right):
    """What the check says of each flipped bit of the actor's state (octet 32)."""
    for place, name in enumerate(BITS):
        differ = wrong_fields(found[8 * 32 + place], right)
        field = f"lacp.actor.state.{name}"
        print(f"  {name} flipped: " + (f"found, {field} is not {frame[32] >> place & 1}" if field in differ else "not found there"))


def wire(command):
    """Everything, and the last line; whether all is well."""
    checks, chance = Checks(), random.Random(43)
    with Captured(command) as switch:
        tour = Tour(switch, checks)
        for _ in range(TOURS):
            random_tour(tour, chance)
        hear_odd_frames(tour)
        walk(tour)
        switch.pages()
    print(f"received: {checks.passed} checks on frames that scapy built")
    checks.equal("ends that Markers of ours came to", {end for end in tour.ends if tour.ends[end]}, {ANSWERED, TIMED_OUT, CANCELLED})
    print(f"Markers of ours: {tour.ends[ANSWERED]} answered, {tour.ends[TIMED_OUT]} timed out, {tour.ends[CANCELLED]} cancelled")
    found = judge(checks, tour.frames, tour.expected)
    every_state_bit(checks, found)
    sent = Counter(KINDS[kind_of(frame)] for frame in tour.frames)
    print(f"sent: {sent['an LACPDU']} LACPDUs, {sent['a Response']} Marker Responses and {sent['a Marker']} Markers, every field read by tshark")
    places = hold_counters(checks, switch, CAPTURES / "counted.pcap")
    counted = by_name(places)
    checks.equal("counters that counted something", set(counted), set(Counters._fields))
    print("counted, by tshark and by the ports:", ", ".join(f"{counted[name]} {name}" for name in Counters._fields))
    wrong, caught = wrong_senders(tour.frames, tour.expected)
    missed, noticed = left_out(switch, places, CAPTURES / "misses.pcap")
    print(f"wire: {checks.passed} checks passed, {checks.failed} failed; of {wrong} frames with one wrong bit {caught} were found out,",
          f"and of {missed} that a capture misses, {noticed}")
    return checks.failed == 0 and (caught, noticed) == (wrong, missed)


if __name__ == "__main__":
    run("wire", wire)
