"""A tap that somebody holds open, so that it has a carrier. As a program, in a namespace: tap.py NAME makes it, prints 'ready', and reads what is sent."""

import fcntl
import os
import struct
import sys
from pathlib import Path

from program import Program
from wires import inside

TUNSETIFF, IFF_TAP, IFF_NO_PI = 0x400454CA, 0x0002, 0x1000


class Tap(Program):
    """A tap of this name."""

    def __init__(self, space, name):
        self.is_ready = None
        super().__init__(inside(space, "/usr/bin/python3", "-B", str(Path(__file__)), name))
        self.await_news(lambda: self.is_ready, 5, "a tap")

    def take(self, moment, line):
        self.is_ready = True


def hold(name):
    """Makes it and reads for ever; a tap that is not up cannot be read yet."""
    tap = os.open("/dev/net/tun", os.O_RDWR)
    fcntl.ioctl(tap, TUNSETIFF, struct.pack("16sH22x", name.encode(), IFF_TAP | IFF_NO_PI))
    print("ready", flush=True)
    while True:
        os.read(tap, 2048)


if __name__ == "__main__":
    hold(sys.argv[1])
