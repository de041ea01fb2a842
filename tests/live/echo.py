"""UDP echoes. As a program: `echo.py answer ADDRESS` answers on it and prints 'ready'; `echo.py ask ADDRESS SECONDS` asks there 200 times a second, in 8 flows,
and prints, as JSON, how many were sent, the moments in which those that got lost were, and how many answers came twice."""

import json
import select
import socket
import sys
import time
from pathlib import Path

from program import Program
from wires import inside

PORT, FIRST_FLOW, FLOWS, RATE = 7, 40001, 8, 200
LATE = 0.5  # seconds for which the last answers are awaited


class Answers(Program):
    """Whoever answers in a namespace."""

    def __init__(self, space, address):
        self.is_ready = None
        super().__init__(inside(space, "/usr/bin/python3", "-B", str(Path(__file__)), "answer", address))
        self.await_news(lambda: self.is_ready, 5, "an echo")

    def take(self, moment, line):
        self.is_ready = True


class Asks(Program):
    """Whoever asks in a namespace, for so many seconds."""

    def __init__(self, space, address, seconds):
        self.result, self.seconds = None, seconds
        super().__init__(inside(space, "/usr/bin/python3", "-B", str(Path(__file__)), "ask", address, str(seconds)))

    def take(self, moment, line):
        self.result = json.loads(line)

    def outcome(self):
        """What came of it, once it has ended."""
        return self.await_news(lambda: self.result, self.seconds + 5, "the echoes")


def answer(address):
    """Sends back what comes, for ever."""
    with socket.socket(socket.AF_INET, socket.SOCK_DGRAM) as ours:
        ours.bind((address, PORT))
        print("ready", flush=True)
        while True:
            ours.sendto(*ours.recvfrom(2048))


def flow(number, address):
    """The socket of a flow: each has a port of its own. It is connected, so that what the machine took from a member as well as from the tap would come twice."""
    ours = socket.socket(socket.AF_INET, socket.SOCK_DGRAM)
    ours.bind(("", FIRST_FLOW + number))
    ours.connect((address, PORT))
    ours.setblocking(False)
    return ours


def receive(flows, until, came):
    """Takes answers until a moment."""
    while (left := until - time.monotonic()) > 0:
        for ours in select.select(flows, [], [], left)[0]:
            try:
                number = int.from_bytes(ours.recv(64), "big")
            except OSError:  # nobody was there when it was asked
                continue
            came[number] = came.get(number, 0) + 1


def ask(address, seconds):
    """Asks and prints what came of it."""
    flows, came, count = [flow(number, address) for number in range(FLOWS)], {}, round(seconds * RATE)
    start = time.monotonic()
    for number in range(count):
        receive(flows, start + number / RATE, came)
        try:
            flows[number % FLOWS].send(number.to_bytes(64, "big"))
        except OSError:  # it counts as lost
            pass
    receive(flows, time.monotonic() + LATE, came)
    lost = [start + number / RATE for number in range(count) if number not in came]
    print(json.dumps({"sent": count, "lost": lost, "twice": sum(times - 1 for times in came.values())}), flush=True)


if __name__ == "__main__":
    {"answer": answer, "ask": lambda address, seconds: ask(address, float(seconds))}[sys.argv[1]](*sys.argv[2:])
