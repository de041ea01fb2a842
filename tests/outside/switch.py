"""The library as Python sees it: tests/outside/switch.c behind a pipe, blocks and records by their fields, and a count of checks."""

import signal
import struct
import subprocess
import sys
import traceback
from typing import NamedTuple

SLOW_ADDRESS = bytes.fromhex("0180c2000002")

# Answers.
DONE, LACP_OFF, FOREIGN, UNKNOWN, ILLEGAL, NOT_COLLECTING, NOTHING_TO_SEND, TOO_MANY_SENDS, RESPONSE = 0, 5, 6, 7, 8, 9, 10, 11, 12
NOT_DISTRIBUTING, ALREADY_AWAITING = 13, 14
# Receive and mux states.
PORT_DISABLED, EXPIRED, LACP_DISABLED, DEFAULTED, CURRENT = 1, 2, 3, 4, 5
DETACHED, WAITING, ATTACHED, COLLECTING, DISTRIBUTING = range(5)
# Churn states.
NO_CHURN, CHURN_MONITOR, CHURN = range(3)
# What comes of a Marker of ours.
NEVER_ASKED, AWAITING, ANSWERED, TIMED_OUT, CANCELLED = range(5)
# Causes.
(NO_CAUSE, CARRIES, CARRIES_BY_DEFAULT, LINK_DOWN, HALF_DUPLEX, IS_DEFAULTED, IS_EXPIRED, WAITS, HELD_BACK, OUT_OF_SYNC,
 PARTNER_NOT_COLLECTING) = range(11)
# Reasons, each a bit.
(FIRST_INDIVIDUAL, FIRST_PARTNER_INDIVIDUAL, FIRST_LOOPED, SECOND_INDIVIDUAL, SECOND_PARTNER_INDIVIDUAL, SECOND_LOOPED, KEYS_DIFFER,
 PARTNER_PRIORITIES_DIFFER, PARTNER_SYSTEMS_DIFFER, PARTNER_KEYS_DIFFER) = (1 << n for n in range(10))
# The bits of a state octet, from bit 0.
BITS = ("activity", "timeout", "aggregation", "synchronization", "collecting", "distributing", "defaulted", "expired")


def bit(name):
    """The state octet with this bit alone."""
    return 1 << BITS.index(name)


class Block(NamedTuple):
    """An information block."""
    system_priority: int
    system: bytes
    key: int
    port_priority: int
    port: int
    state: int

    LAYOUT = struct.Struct(">H6sHHHB")

    def __repr__(self):
        return f"{self.system_priority:04x} {self.system.hex()} {self.key:04x} {self.port_priority:04x} {self.port:04x} {self.state:02x}"

    @classmethod
    def read(cls, octets):
        """The block that these 15 octets are."""
        return cls(*cls.LAYOUT.unpack(octets))

    def octets(self):
        """The block's 15 octets."""
        return self.LAYOUT.pack(*self)

    def has(self, name):
        """Whether the state has this bit."""
        return bool(self.state & bit(name))


NOBODY = Block(0, bytes(6), 0, 0, 0, 0)


class System(NamedTuple):
    """What a start says of the whole switch."""
    priority: int
    address: bytes
    delay: int


class Settings(NamedTuple):
    """A port's settings."""
    address: bytes
    key: int
    port_priority: int
    activity: bool
    timeout: bool
    aggregation: bool
    partner: Block

    def words(self):
        """The settings as switch.c reads them."""
        flags = (int(flag) for flag in (self.activity, self.timeout, self.aggregation))
        return (self.address.hex(), self.key, self.port_priority, *flags, self.partner.octets().hex())


class Record(NamedTuple):
    """A port's record, field by field as docs/TABLE.md has it."""
    receive: int
    periodic: int
    mux: int
    selected: int
    aggregator: int
    ntt: int
    link: int
    duplex: int
    state: int
    current_while: int
    periodic_timer: int
    wait_timer: int
    ages: bytes
    address: bytes
    key: int
    port_priority: int
    default: Block
    partner: Block
    actor_churn: int
    partner_churn: int
    actor_churn_timer: int
    partner_churn_timer: int
    actor_churn_count: int
    partner_churn_count: int
    marker: int
    marker_timer: int
    marker_number: int

    LAYOUT = struct.Struct(">9BHHB3s6sHH15s15sBBHHIIBHI")

    @classmethod
    def read(cls, octets):
        """The record that these 78 octets are."""
        record = cls(*cls.LAYOUT.unpack(octets))
        return record._replace(default=Block.read(record.default), partner=Block.read(record.partner))


class Aggregator(NamedTuple):
    """An aggregator's report, its sets as sets of port numbers."""
    holding: set
    attached: set
    distributing: set
    count: int
    lowest: int


class Counters(NamedTuple):
    """The counters of a port, in the order of struct myrkosti_counters."""
    lacpdus_received: int
    markers_received: int
    marker_responses_received: int
    unknown_received: int
    illegal_received: int
    lacpdus_sent: int
    marker_responses_sent: int


# Each cause as a sentence goes on, and each reason, as the desk is told.
SAID = ("does not carry, and nothing says why", "carries", "carries on its settings alone: no partner is heard to agree",
        "does not carry: its link is down", "does not carry: its link is at half duplex, so LACP is off", "does not carry: no partner is heard on it",
        "does not carry: its partner is silent", "waits, {ticks} more", "waits for port {holder}, {ticks} more",
        "does not carry: its partner is not in sync with it", "does not carry: its partner is in sync, but does not collect")
REASONS = ("port {first} is set to stay alone", "the partner of port {first} stays alone", "the partner of port {first} is this switch itself",
           "port {second} is set to stay alone", "the partner of port {second} stays alone", "the partner of port {second} is this switch itself",
           "their own keys differ", "the system priorities of their partners differ", "the system addresses of their partners differ",
           "the keys of their partners differ")


class Why(NamedTuple):
    """Why a port carries or does not."""
    port: int
    cause: int
    holder: int = 0
    ticks: int = 0

    def __str__(self):
        ticks = f"{self.ticks} tick{'s' * (self.ticks != 1)}"
        return f"Port {self.port} {SAID[self.cause].format(holder=self.holder, ticks=ticks)}."


class Apart(NamedTuple):
    """Why two ports are apart, or that they are not."""
    first: int
    second: int
    reasons: int

    def __str__(self):
        said = [words.format(first=self.first, second=self.second) for n, words in enumerate(REASONS) if self.reasons >> n & 1]
        told = f"are apart: {', '.join(said[:-1])}{', and ' * (len(said) > 1)}{said[-1]}" if said else "share a group"
        return f"Ports {self.first} and {self.second} {told}."


def members(number):
    """The ports of a 32-bit set, bit 0 is port 1."""
    return {port for port in range(1, 33) if number >> (port - 1) & 1}


class Switch:
    """One table of the library, in a process of its own."""

    def __init__(self, command):
        self.process = subprocess.Popen(command, stdin=subprocess.PIPE, stdout=subprocess.PIPE, encoding="ascii", bufsize=1)
        self.system, self.ports = None, range(0)
        self.is_todays = not {"--yesterday", "--lately"} & set(command)  # whether today's library makes the calls

    def __enter__(self):
        return self

    def __exit__(self, *_):
        self.process.stdin.close()
        self.process.wait(timeout=10)
        self.process.stdout.close()

    def call(self, *words):
        """One line to switch.c: the answer, and the words after it."""
        self.process.stdin.write(" ".join(map(str, words)) + "\n")
        line = self.process.stdout.readline()
        if not line:
            raise RuntimeError(f"the switch ended at {words[0]}")
        answer, *rest = line.split()
        return int(answer), rest

    def done(self, *words):
        """A call that must be answered 0: the words after it."""
        answer, rest = self.call(*words)
        if answer != DONE:
            raise RuntimeError(f"{words} is answered {answer}")
        return rest

    def framed(self, *words):
        """A call that may give a frame: the answer, and the frame's octets."""
        answer, (text,) = self.call(*words)
        return answer, b"" if text == "-" else bytes.fromhex(text)

    def start(self, ports, system, settings):
        """Starts the table."""
        self.system, self.ports = system, range(1, ports + 1)
        self.done("start", ports, system.priority, system.address.hex(), system.delay, *settings.words())

    def set(self, port, settings):
        """Gives a port other settings."""
        self.done("settings", port, *settings.words())

    def line(self, port, up, full):
        """The link of a port is up or down, and its duplex full or half."""
        self.done("line", port, int(up), int(full))

    def tick(self):
        """A tenth of a second passes."""
        self.done("tick")

    def receive(self, port, frame):
        """The answer to a received frame, and the Response."""
        return self.framed("receive", port, frame.hex() or "-")

    def due(self):
        """The ports that have something to send."""
        return members(int(self.done("due")[0]))

    def fetch(self, port):
        """The answer to a fetch, and the LACPDU."""
        return self.framed("fetch", port)

    def ask(self, port, ticks):
        """The answer to an ask for a Marker, to be awaited for so many ticks, and the Marker."""
        return self.framed("ask", port, ticks)

    def port(self, port):
        """The record of a port."""
        return Record.read(bytes.fromhex(self.done("port", port)[0]))

    def actor(self, port):
        """What a port is to say of itself: the system's and the record's fields as an information block."""
        record = self.port(port)
        return Block(self.system.priority, self.system.address, record.key, record.port_priority, port, record.state)

    def aggregator(self, number):
        """The report of an aggregator."""
        holding, attached, distributing, count, lowest = map(int, self.done("aggregator", number))
        return Aggregator(members(holding), members(attached), members(distributing), count, lowest)

    def why(self, port):
        """Why a port carries or does not, by today's library."""
        return Why(port, *map(int, self.done("why", port)))

    def apart(self, first, second):
        """Why two ports are apart, or that they are not, by today's library."""
        return Apart(first, second, int(self.done("apart", first, second)[0]))

    def counters(self, port):
        """The counters of a port, since the start."""
        return Counters(*map(int, self.done("counters", port)))

    def forward(self):
        """Gives the table from the library of before to that of today, which goes on with it."""
        self.done("forward")
        self.is_todays = True

    def back(self):
        """Gives it back, and the library of before goes on."""
        self.done("back")
        self.is_todays = False


class Checks:
    """Counts what holds, and prints what does not unless it is quiet."""

    def __init__(self, quiet=False):
        self.passed = self.failed = 0
        self.quiet = quiet

    def equal(self, what, found, expected):
        """One check: what was found is what was expected."""
        if found == expected:
            self.passed += 1
            return
        self.failed += 1
        if self.failed <= 20 and not self.quiet:
            print(f"failed: {what}: {found}, expected {expected}", flush=True)


def run(name, test):
    """Runs a test over the command that the command line names and ends with its result; one that breaks off has a last line too."""
    signal.signal(signal.SIGTERM, lambda *_: sys.exit(1))
    try:
        good = test(sys.argv[1:])
    except Exception as error:  # whatever it is, the test did not pass
        traceback.print_exc()
        print(f"{name}: broken off: {error!r}")
        good = False
    sys.exit(0 if good else 1)
