"""Slow Protocols frames that arrive at an interface, seen beside whoever else listens there.

As a program, in the namespace of the interface: listener.py IF prints 'ready', and then each frame as the moment in which it came and its octets. What
leaves the interface is not seen.
"""

import socket
import sys
import time
from pathlib import Path
from typing import NamedTuple

from program import Program
from wires import inside

SLOW = 0x8809
SOL_PACKET, PACKET_IGNORE_OUTGOING = 263, 23
LACPDU, MARKER, RESPONSE = (1, 1), (2, 1), (2, 2)


class Frame(NamedTuple):
    """A frame, and when it came."""
    moment: float
    octets: bytes

    def kind(self):
        """Its subtype, and the type of its first part: LACPDU, MARKER, RESPONSE or something else."""
        return self.octets[14], self.octets[16]


class Listener(Program):
    """The frames that arrive at an interface from now on."""

    def __init__(self, space, interface):
        self.frames, self.is_ready = [], None
        super().__init__(inside(space, "/usr/bin/python3", "-B", str(Path(__file__)), interface))
        self.await_news(lambda: self.is_ready, 5, "a listener")

    def take(self, moment, line):
        if line == b"ready\n":
            self.is_ready = True
        else:
            when, octets = line.split()
            self.frames.append(Frame(float(when), bytes.fromhex(octets.decode())))

    def of(self, kind):
        """The frames of a kind so far."""
        return [frame for frame in list(self.frames) if frame.kind() == kind]

    def last_before(self, moment):
        """When the last LACPDU came before a moment, or at it."""
        return max(frame.moment for frame in self.of(LACPDU) if frame.moment <= moment)

    def first_after(self, moment, seconds):
        """When the first LACPDU came after a moment; it is awaited for so long."""
        return self.await_news(lambda: next((frame.moment for frame in self.of(LACPDU) if frame.moment > moment), None), seconds, "an LACPDU")


def listen(interface):
    """Prints what arrives."""
    with socket.socket(socket.AF_PACKET, socket.SOCK_RAW, 0) as arriving:
        arriving.setsockopt(SOL_PACKET, PACKET_IGNORE_OUTGOING, 1)
        arriving.bind((interface, SLOW))
        print("ready", flush=True)
        while True:
            try:
                octets = arriving.recv(2048)
            except OSError:  # the link fell
                continue
            print(time.monotonic(), octets.hex(), flush=True)


if __name__ == "__main__":
    listen(sys.argv[1])
