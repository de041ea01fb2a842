"""A capture in the form pcapng, read as strictly as its document allows: every frame has an interface with a name, and a direction."""

import struct
from typing import NamedTuple

SECTION, INTERFACE, PACKET = 0x0A0D0D0A, 1, 6
MAGIC = 0x1A2B3C4D
ETHERNET = 1
NAME, RESOLUTION, FLAGS = 2, 9, 2
DIRECTIONS = {1: "in", 2: "out"}


class Packet(NamedTuple):
    """A frame of a capture."""
    interface: str
    direction: str
    time: float
    octets: bytes


def blocks(octets):
    """The blocks of a capture: type and body."""
    place = 0
    while place < len(octets):
        kind, length = struct.unpack_from("<II", octets, place)
        if length < 12 or length % 4 or struct.unpack_from("<I", octets, place + length - 4) != (length,):
            raise ValueError(f"a block at {place} has not its length at its end")
        yield kind, octets[place + 8:place + length - 4]
        place += length


def options(octets):
    """The options at the end of a block, by their numbers; their end must be marked."""
    found, place = {}, 0
    while place < len(octets):
        number, length = struct.unpack_from("<HH", octets, place)
        if number == 0:
            return found
        found[number] = octets[place + 4:place + 4 + length]
        place += 4 + (length + 3) // 4 * 4
    if octets:
        raise ValueError("options without an end")
    return found


def interface(body):
    """The name of an interface, and how many parts of a second its times count."""
    link, _, _ = struct.unpack_from("<HHI", body)
    if link != ETHERNET:
        raise ValueError(f"an interface of link type {link}")
    found = options(body[8:])
    power = found.get(RESOLUTION, b"\x06")[0]
    return found[NAME].decode(), 2 ** (power & 0x7f) if power & 0x80 else 10 ** power


def packet(body, interfaces):
    """A frame."""
    number, high, low, kept, whole = struct.unpack_from("<5I", body)
    if kept != whole:
        raise ValueError("a frame that is not whole")
    found = options(body[20 + (kept + 3) // 4 * 4:])
    name, parts = interfaces[number]
    flags, = struct.unpack("<I", found[FLAGS])
    return Packet(name, DIRECTIONS[flags & 3], (high << 32 | low) / parts, body[20:20 + kept])


def read(octets):
    """The names of the interfaces, and the frames."""
    interfaces, packets = [], []
    for number, (kind, body) in enumerate(blocks(octets)):
        if (kind == SECTION) != (number == 0):
            raise ValueError("not one section that begins the file")
        if kind == SECTION and struct.unpack_from("<IHH", body) != (MAGIC, 1, 0):
            raise ValueError("not of version 1.0, or of another order of octets")
        if kind == INTERFACE:
            interfaces.append(interface(body))
        if kind == PACKET:
            packets.append(packet(body, interfaces))
    return [name for name, _ in interfaces], packets
