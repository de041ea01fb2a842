"""What passes the ports of a switch, as a capture that tshark reads, and the ports' counters held against what tshark counts in it."""

import struct
import subprocess
from collections import Counter
from pathlib import Path
from typing import NamedTuple

from switch import DONE, Counters, Switch

CAPTURES = Path("target/outside")

# The kinds of frames that counters know, each as a display filter: what arrives at a port and passes one of them counts as that, and nothing else counts.
SLOW = "frame.len >= 14 && eth.dst == 01:80:c2:00:00:02 && eth.type == 0x8809"
LACPDU = f"{SLOW} && slow.subtype == 1 && frame.len >= 124 && frame[17] == 14 && frame[37] == 14 && frame[57] == 10"
MARKER = f"{SLOW} && slow.subtype == 2 && frame.len >= 124 && frame[16] == 01 && frame[17] == 10"
RESPONSE = f"{SLOW} && slow.subtype == 2 && frame.len >= 124 && frame[16] == 02 && frame[17] == 10"
OTHERS = f"{SLOW} && slow.subtype >= 3 && slow.subtype <= 10"
KINDS = {
    "lacpdus": LACPDU,
    "markers": MARKER,
    "marker_responses": RESPONSE,
    "unknown": f"({OTHERS}) || (frame.len >= 14 && eth.dst == 01:80:c2:00:00:02 && !(eth.type == 0x8809))",
    "illegal": f"{SLOW} && !({LACPDU}) && !({MARKER}) && !({RESPONSE}) && !({OTHERS})",
}


class Passed(NamedTuple):
    """A frame at a port of a switch: after how many starts, on which port, whether the switch sent it, and its octets."""
    life: int
    port: int
    sent: bool
    frame: bytes


class Captured(Switch):
    """A switch of which is kept what passed its ports while it counted, and what its counters said in the end: before each start, and at pages()."""

    def __init__(self, command):
        super().__init__(command)
        self.counting = self.counts_before = "--yesterday" not in command
        self.passed, self.told, self.life = [], {}, 0

    def note(self, port, sent, frame):
        """A frame at a port; a library without counters knows nothing of it."""
        if self.counting:
            self.passed.append(Passed(self.life, port, sent, frame))

    def pages(self):
        """Notes what the counters of all ports say."""
        for port in self.ports:
            for name, number in self.counters(port)._asdict().items():
                self.told[self.life, port, name] = number

    def start(self, ports, system, settings):
        self.pages()
        super().start(ports, system, settings)
        self.life += 1

    def receive(self, port, frame):
        self.note(port, False, frame)
        answer, response = super().receive(port, frame)
        if response:
            self.note(port, True, response)
        return answer, response

    def fetch(self, port):
        answer, frame = super().fetch(port)
        if answer == DONE:
            self.note(port, True, frame)
        return answer, frame

    def ask(self, port, ticks):
        answer, frame = super().ask(port, ticks)
        if answer == DONE:
            self.note(port, True, frame)
        return answer, frame

    def forward(self):
        super().forward()
        self.counting = True

    def back(self):
        super().back()
        self.counting = self.counts_before


def write_capture(path, frames):
    """A capture file of Ethernet frames, all at time 0."""
    records = (struct.pack("<4I", 0, 0, len(frame), len(frame)) + frame for frame in frames)
    path.write_bytes(struct.pack("<IHHiIII", 0xa1b2c3d4, 2, 4, 0, 0, 65535, 1) + b"".join(records))


def tshark(path, *words):
    """What tshark prints of a capture."""
    return subprocess.run(["tshark", "-n", "-r", path, *words], capture_output=True, check=True, text=True).stdout


def kinds(path, passed):
    """The kind of each of these frames, by tshark; none where it has none."""
    write_capture(path, [each.frame for each in passed])
    found = [None] * len(passed)
    for kind, pattern in KINDS.items():
        for number in map(int, tshark(path, "-Y", pattern, "-T", "fields", "-e", "frame.number").split()):
            if found[number - 1]:
                raise RuntimeError(f"{path}: frame {number} is of two kinds")
            found[number - 1] = kind
    return found


def counter(kind, sent):
    """The name of the counter of frames of this kind; none where there is none, as for Markers that were sent."""
    name = f"{kind}_{'sent' if sent else 'received'}"
    return name if name in Counters._fields else None


def places(path, passed):
    """Of each frame the counter that must have counted it: after how many starts, on which port, and its name; none for a frame that counts nowhere."""
    names = [counter(kind, each.sent) for each, kind in zip(passed, kinds(path, passed), strict=True)]
    return [(each.life, each.port, name) if name else None for each, name in zip(passed, names, strict=True)]


def compared(switch, every):
    """Each counter of each port, what it says, and how many of these places are its own."""
    found = Counter(filter(None, every))
    for place in sorted(switch.told.keys() | found.keys()):
        yield place, switch.told.get(place, 0), found[place]


def hold_counters(checks, switch, path):
    """Each counter of each port is what tshark counts in the capture; the frames' places."""
    every = places(path, switch.passed)
    for (life, port, name), told, found in compared(switch, every):
        checks.equal(f"{name} of port {port} after start {life}", told, found)
    return every


def by_name(every):
    """How many frames there were for each counter, on all ports together."""
    return Counter(place[2] for place in every if place)


def left_out(switch, every, path):
    """The same with a capture that misses one frame for each counter: how many there are, and how many counters differ, if no others do."""
    last = {place[2]: number for number, place in enumerate(every) if place}
    rest = [each for number, each in enumerate(switch.passed) if number not in last.values()]
    differ = {place for place, told, found in compared(switch, places(path, rest)) if told != found}
    return len(last), len(differ) if differ <= {every[number] for number in last.values()} else 0
