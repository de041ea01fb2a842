"""Frames that nobody sends by mistake. As a program, in the namespace of an interface: frames.py IF HEX.. sends each there, as it is."""

import socket
import subprocess
import sys
from pathlib import Path

from wires import inside

SLOW_PROTOCOLS, ELSEWHERE, SENDER = bytes.fromhex("0180c2000002"), bytes.fromhex("0180c2000003"), bytes.fromhex("020000000c01")
TYPE, OTHER_TYPE = bytes.fromhex("8809"), bytes.fromhex("8808")


def block(system, key, number, state):
    """An information block (43.4.2)."""
    return (32768).to_bytes(2, "big") + system + key.to_bytes(2, "big") + (32768).to_bytes(2, "big") + number.to_bytes(2, "big") + bytes([state])


# What an LACPDU says behind its type: an active sender with a short timeout, which hears nobody.
SAID = b"\1\1" + b"\1\x14" + block(SENDER, 9, 7, 0x07) + bytes(3) + b"\2\x14" + block(bytes(6), 0, 0, 0) + bytes(3) + b"\3\x10" + bytes(14) + bytes(52)


def frame(destination=SLOW_PROTOCOLS, tag=b"", kind=TYPE):
    """An LACPDU, if nothing else is said."""
    return destination + SENDER + tag + kind + SAID


def tag(number):
    """A VLAN tag."""
    return bytes.fromhex("8100") + number.to_bytes(2, "big")


def send(space, interface, *frames):
    """Sends frames from an interface of a namespace."""
    words = inside(space, "/usr/bin/python3", "-B", str(Path(__file__)), interface, *(each.hex() for each in frames))
    subprocess.run(words, check=True, timeout=10)


if __name__ == "__main__":
    with socket.socket(socket.AF_PACKET, socket.SOCK_RAW) as ours:
        ours.bind((sys.argv[1], 0))
        for each in sys.argv[2:]:
            ours.send(bytes.fromhex(each))
