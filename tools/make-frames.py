"""Makes test frames with scapy, and the text that a reader of them must print.

The frames come from scapy's own idea of LACPDUs and Markers (scapy.contrib.lacp), so that
a wrong offset of ours cannot hide in frames of our own making. Two files are written:

crates/cases/data/frames: for each frame two octets of length, high octet first, then the
    frame's octets, without FCS. A length of 0 is a frame of no octets.
crates/cases/stdout: for frame number N, from 1, what document 01 says of it:
        N refused 6                (or 7, or 8)
        N lacpdu actor PRIO SYSTEM KEY PPRIO PORT STATE partner (the same six)
          sends HEX                (an LACPDU with the same two blocks)
        N marker
          sends HEX                (the Marker Response)
        N response
    Numbers are in hexadecimal; STATE has a letter of ATGSCDFE for each set bit, from bit 0.
    HEX is 124 octets with OWN_ADDRESS and, in an LACPDU, COLLECTOR_MAX_DELAY.
    After the frames comes the story of one port, as tools/story.txt has it, and that of six ports, as
    tools/story-of-six.py works it out.

To make both again:
    apt-get install python3-scapy
    /usr/bin/python3 tools/make-frames.py
"""

import subprocess
import sys
from dataclasses import dataclass
from pathlib import Path

from scapy.contrib.lacp import LACP, MarkerProtocol, SlowProtocol
from scapy.layers.l2 import Ether

CASES = Path(__file__).resolve().parent.parent / "crates" / "cases"
# What the program prints after the frames: worked out by hand from the figures of Clause 43, and by a model of document 01.
TOOLS = Path(__file__).resolve().parent
STORY = TOOLS / "story.txt"
STORY_OF_SIX = TOOLS / "story-of-six.py"

SLOW_ADDRESS = "01:80:c2:00:00:02"
SLOW_TYPE = 0x8809
WHOLE = 124
LACPDU_SUBTYPE, MARKER_SUBTYPE = 1, 2
MARKER, RESPONSE = 1, 2

# The sender of what is expected in answer, and the sender of the test frames.
OWN_ADDRESS = "02:00:5e:10:20:30"
PEER_ADDRESS = "02:b1:b2:b3:b4:b5"
COLLECTOR_MAX_DELAY = 0x1234

# What document 01 fixes in an LACPDU and in a Marker. All of it is given to scapy, so that
# nothing rests on scapy's defaults.
FIXED_LACPDU = {
    "version": 1,
    "actor_type": 1, "actor_length": 20, "actor_reserved": bytes(3),
    "partner_type": 2, "partner_length": 20, "partner_reserved": bytes(3),
    "collector_type": 3, "collector_length": 16, "collector_reserved": bytes(12),
    "terminator_type": 0, "terminator_length": 0, "reserved": bytes(50),
}
# Octets 30-33 are zero in document 01; scapy has two reserved and a terminator there.
FIXED_MARKER = {
    "version": 1, "marker_length": 16, "marker_reserved": bytes(2),
    "terminator_type": 0, "terminator_length": 0, "reserved": bytes(90),
}

# A block's six fields, in their order on the wire, as scapy names them after "actor_".
BLOCK = ("system_priority", "system", "key", "port_priority", "port_number", "state")


def block(side, *values):
    """The fields of the actor's or the partner's block, in the order of BLOCK."""
    return {f"{side}_{name}": value for name, value in zip(BLOCK, values, strict=True)}


# No octet comes twice in these, so that a swapped field shows.
ACTOR = block("actor", 0x1112, "21:22:23:24:25:26", 0x3132, 0x4142, 0x5152, 0x3d)
PARTNER = block("partner", 0x6162, "71:72:73:74:75:76", 0x8182, 0x9192, 0xa1a2, 0x45)
REQUESTER = {"requester_port": 0xc1c2, "requester_system": "d1:d2:d3:d4:d5:d6",
             "requester_transaction_id": 0xe1e2e3e4}

ALL_ONES = (0xffff, "ff:ff:ff:ff:ff:ff", 0xffff, 0xffff, 0xffff, 0xff)
ALL_ZERO = (0, "00:00:00:00:00:00", 0, 0, 0, 0)


@dataclass
class Frame:
    """How a frame is made: what scapy is given, and the cut or the padding afterwards."""
    contents: type
    fields: dict
    subtype: int
    destination: str = SLOW_ADDRESS
    source: str = PEER_ADDRESS
    ethertype: int = SLOW_TYPE
    length: int = WHOLE
    fill: int = 0


def changed(contents, fields, subtype, changes):
    """A frame with changes, each named as a field of the contents or as a part of Frame."""
    inside = {name: value for name, value in changes.items() if name in fields}
    around = {name: value for name, value in changes.items() if name not in fields}
    return Frame(contents, fields | inside, **({"subtype": subtype} | around))


def lacpdu(**changes):
    """A good LACPDU but for the changes."""
    fields = FIXED_LACPDU | ACTOR | PARTNER | {"collector_max_delay": 0xf1f2}
    return changed(LACP, fields, LACPDU_SUBTYPE, changes)


def marker(**changes):
    """A good Marker but for the changes."""
    fields = FIXED_MARKER | REQUESTER | {"marker_type": MARKER}
    return changed(MarkerProtocol, fields, MARKER_SUBTYPE, changes)


def response(**changes):
    """A good Marker Response but for the changes."""
    return marker(**({"marker_type": RESPONSE} | changes))


def octets_of(frame):
    """The frame's octets: built whole by scapy, then cut or padded to its length."""
    header = Ether(dst=frame.destination, src=frame.source, type=frame.ethertype)
    whole = bytes(header / SlowProtocol(subtype=frame.subtype) / frame.contents(**frame.fields))
    # scapy 2.5 lays out all 124 octets itself; another length would be another layout.
    assert len(whole) == WHOLE, f"scapy built {len(whole)} octets instead of {WHOLE}"
    padding = bytes([frame.fill]) * max(0, frame.length - WHOLE)
    return (whole + padding)[:frame.length]


# What document 01 says of a frame, from how it was made.

def outcome(frame):
    """6, 7 or 8 for a refused frame, else what kind of frame it is."""
    if frame.length < 14 or frame.destination != SLOW_ADDRESS:
        return 6
    if frame.ethertype != SLOW_TYPE:
        return 7
    if frame.length < 15:
        return 8
    if 3 <= frame.subtype <= 10:
        return 7
    if frame.subtype not in (LACPDU_SUBTYPE, MARKER_SUBTYPE) or frame.length < WHOLE:
        return 8
    return lacpdu_outcome(frame) if frame.subtype == LACPDU_SUBTYPE else marker_outcome(frame)


def lacpdu_outcome(frame):
    """The test of the three block lengths: octets 17, 37 and 57."""
    lengths = [frame.fields[f"{side}_length"] for side in ("actor", "partner", "collector")]
    return "lacpdu" if lengths == [20, 20, 16] else 8


def marker_outcome(frame):
    """The tests of octets 16 and 17, which in an LACPDU's contents are the actor's."""
    side = "actor" if frame.contents is LACP else "marker"
    if frame.fields[f"{side}_length"] != 16:
        return 8
    return {MARKER: "marker", RESPONSE: "response"}.get(frame.fields[f"{side}_type"], 8)


def block_text(side, fields):
    """A block as it is to be printed."""
    priority, system, key, port_priority, port, state = (fields[f"{side}_{n}"] for n in BLOCK)
    letters = "".join(c if state >> bit & 1 else "-" for bit, c in enumerate("ATGSCDFE"))
    system = system.replace(":", "")
    return f"{side} {priority:04x} {system} {key:04x} {port_priority:04x} {port:04x} {letters}"


def sent_lacpdu(fields):
    """The LACPDU of ours with the same two blocks, built afresh."""
    blocks = {name: fields[name] for name in ACTOR | PARTNER}
    ours = FIXED_LACPDU | blocks | {"collector_max_delay": COLLECTOR_MAX_DELAY}
    return octets_of(Frame(LACP, ours, LACPDU_SUBTYPE, source=OWN_ADDRESS))


def sent_response(fields):
    """Our answer to the Marker, built afresh: only the requester's fields are kept."""
    requester = {name: fields[name] for name in REQUESTER}
    ours = FIXED_MARKER | requester | {"marker_type": RESPONSE}
    return octets_of(Frame(MarkerProtocol, ours, MARKER_SUBTYPE, source=OWN_ADDRESS))


def text_of(number, frame):
    """The lines that a reader of the frame must print."""
    result, fields = outcome(frame), frame.fields
    if result == "lacpdu":
        blocks = f"{block_text('actor', fields)} {block_text('partner', fields)}"
        return f"{number} lacpdu {blocks}\n  sends {sent_lacpdu(fields).hex()}\n"
    if result == "marker":
        return f"{number} marker\n  sends {sent_response(fields).hex()}\n"
    if result == "response":
        return f"{number} response\n"
    return f"{number} refused {result}\n"


# The cases: a label, the frame, and the outcome as one reads it in document 01. The outcome
# is stated here a second time, so that a slip in outcome() does not reach the file unseen.

def lacpdu_cases():
    yield "ordinary", lacpdu(), "lacpdu"
    for bit in range(8):
        yield f"actor bit {bit}", lacpdu(actor_state=1 << bit, partner_state=0), "lacpdu"
    for bit in range(8):
        yield f"partner bit {bit}", lacpdu(actor_state=0, partner_state=1 << bit), "lacpdu"
    yield "all bits", lacpdu(actor_state=0xff, partner_state=0xff), "lacpdu"
    for actor in (ALL_ZERO, ALL_ONES):
        for partner in (ALL_ZERO, ALL_ONES):
            blocks = block("actor", *actor) | block("partner", *partner)
            yield "lowest or highest numbers", lacpdu(**blocks), "lacpdu"
    for source in (OWN_ADDRESS, SLOW_ADDRESS, "00:00:00:00:00:00"):
        yield f"source {source}", lacpdu(source=source), "lacpdu"


def untested_octet_cases():
    for version in (0, 1, 2, 7):
        yield f"version {version}", lacpdu(version=version), "lacpdu"
    yield "version 7 and type octet 9", lacpdu(version=7, actor_type=9), "lacpdu"
    yield "blocks named the other way round", lacpdu(actor_type=2, partner_type=1), "lacpdu"
    for name in ("actor_type", "partner_type", "collector_type",
                 "terminator_type", "terminator_length"):
        yield f"wrong {name}", lacpdu(**{name: 255}), "lacpdu"
    ones = {name: b"\xff" * len(FIXED_LACPDU[name]) for name in FIXED_LACPDU if "reserved" in name}
    for name in ones:
        yield f"{name} not zero", lacpdu(**{name: ones[name]}), "lacpdu"
    yield "nothing reserved is zero", lacpdu(**ones), "lacpdu"
    yield "highest delay", lacpdu(collector_max_delay=0xffff), "lacpdu"


def block_length_cases():
    # 16 and 20 are each the right length of another block.
    for name, wrong in (("actor_length", (19, 21, 0, 255, 16)),
                        ("partner_length", (19, 21, 0, 255, 16)),
                        ("collector_length", (15, 17, 0, 255, 20))):
        for value in wrong:
            yield f"{name} {value}", lacpdu(**{name: value}), 8
    for make in (marker, response):
        for value in (15, 17, 0, 255, 20):
            yield f"marker_length {value}", make(marker_length=value), 8
    yield "wrong length, padded", lacpdu(partner_length=19, length=125), 8


def frame_length_cases():
    for length in (0, 5, 6, 13):
        yield f"LACPDU of {length}", lacpdu(length=length), 6
    # 14 octets: our destination and type, and no subtype octet.
    for length in (14, 15, 18, 60, 123):
        yield f"LACPDU of {length}", lacpdu(length=length), 8
    for length in (60, 123):
        yield f"Marker of {length}", marker(length=length), 8
        yield f"Response of {length}", response(length=length), 8
    for make, kind in ((lacpdu, "lacpdu"), (marker, "marker"), (response, "response")):
        for length in (124, 125, 1500):
            yield f"{kind} of {length}", make(length=length), kind
        yield f"{kind} padded with ones", make(length=1500, fill=0xff), kind


def address_and_type_cases():
    for other in ("00:80:c2:00:00:02", "01:81:c2:00:00:02", "01:80:c3:00:00:02",
                  "01:80:c2:01:00:02", "01:80:c2:00:01:02", "01:80:c2:00:00:03",
                  "ff:ff:ff:ff:ff:ff"):
        yield f"LACPDU to {other}", lacpdu(destination=other), 6
    other = "01:80:c2:00:00:03"
    for length in (13, 14, 60):
        yield f"{length} octets to another", lacpdu(destination=other, length=length), 6
    # The tests run in the order 6, 7, 8.
    yield "another address and type", lacpdu(destination=other, ethertype=0x0800), 6
    yield "another address, subtype 3", lacpdu(destination=other, subtype=3), 6
    yield "another address, wrong length", lacpdu(destination=other, actor_length=19), 6
    for ethertype in (0x0800, 0x8808, 0x8909, 0x8800, 0x0809, 0x0026):
        for length in (14, 15, 60, 124):
            yield f"type {ethertype:04x}", lacpdu(ethertype=ethertype, length=length), 7
    yield "another type, subtype 0", lacpdu(ethertype=0x8808, subtype=0), 7
    yield "another type, wrong length", marker(ethertype=0x8808, marker_length=0), 7


def subtype_cases():
    for subtype in range(3, 11):
        yield f"subtype {subtype}", lacpdu(subtype=subtype), 7
    # Under subtype 2 an LACPDU's octets 16 and 17 say: a Marker, of the wrong length 20.
    for subtype in (0, 2, 11, 12, 128, 255):
        yield f"subtype {subtype}", lacpdu(subtype=subtype), 8
    yield "subtype 1", lacpdu(subtype=1), "lacpdu"
    for length in (15, 60):
        for subtype, result in ((3, 7), (10, 7), (0, 8), (11, 8)):
            yield f"short, subtype {subtype}", lacpdu(subtype=subtype, length=length), result


def marker_cases():
    requester_ones = {"requester_port": 0xffff, "requester_system": "ff:ff:ff:ff:ff:ff",
                      "requester_transaction_id": 0xffffffff}
    rest_ones = {"marker_reserved": b"\xff" * 2, "terminator_type": 255,
                 "terminator_length": 255, "reserved": b"\xff" * 90}
    for make, kind in ((marker, "marker"), (response, "response")):
        yield f"ordinary {kind}", make(), kind
        yield f"{kind} of version 7", make(version=7), kind
        yield f"{kind}, requester all ones", make(**requester_ones), kind
        yield f"{kind}, padding not zero", make(reserved=b"\xff" * 90), kind
        yield f"{kind}, nothing after octet 29 is zero", make(**rest_ones), kind
    for value, result in ((0, 8), (1, "marker"), (2, "response"), (3, 8), (255, 8)):
        yield f"Marker type {value}", marker(marker_type=value), result


def check_layout():
    """scapy's two layouts are document 01's: each against octets written out by hand."""
    by_hand = bytes.fromhex(
        "0180c2000002 02005e102030 8809 01 01"
        "01 14 1112 212223242526 3132 4142 5152 3d 000000"
        "02 14 6162 717273747576 8182 9192 a1a2 45 000000"
        "03 10 1234") + bytes(12) + bytes(2) + bytes(50)
    assert sent_lacpdu(lacpdu().fields) == by_hand, "scapy's LACPDU is laid out otherwise"
    by_hand = bytes.fromhex(
        "0180c2000002 02005e102030 8809 02 01"
        "02 10 c1c2 d1d2d3d4d5d6 e1e2e3e4") + bytes(4) + bytes(90)
    assert sent_response(marker().fields) == by_hand, "scapy's Marker is laid out otherwise"


def main():
    check_layout()
    cases = [*lacpdu_cases(), *untested_octet_cases(), *block_length_cases(),
             *frame_length_cases(), *address_and_type_cases(), *subtype_cases(),
             *marker_cases()]
    frames, text = b"", ""
    for number, (label, frame, stated) in enumerate(cases, start=1):
        assert outcome(frame) == stated, f"{label}: {outcome(frame)}, but {stated} stated"
        octets = octets_of(frame)
        frames += len(octets).to_bytes(2, "big") + octets
        text += text_of(number, frame)
    (CASES / "data").mkdir(parents=True, exist_ok=True)
    (CASES / "data" / "frames").write_bytes(frames)
    six = subprocess.run([sys.executable, STORY_OF_SIX], capture_output=True, check=True, text=True).stdout
    (CASES / "stdout").write_text(text + STORY.read_text(encoding="ascii") + six, encoding="ascii")
    print(f"{len(cases)} frames, {len(frames)} octets")


if __name__ == "__main__":
    main()
