"""A running lacp, and what it told: every line of its --json, held against docs/lacp.schema.json."""

import json
import re
import signal
import subprocess
import time
from pathlib import Path
from typing import NamedTuple

from checks import Failure
from program import Program
from schema import Schema
from wires import inside

SCHEMA = Schema(json.loads(Path("docs/lacp.schema.json").read_text()))
# Causes, as include/myrkosti.h numbers them.
CARRIES, LINK_DOWN, HALF_DUPLEX, IS_DEFAULTED, IS_EXPIRED = 1, 3, 4, 5, 6
SANITIZER = re.compile("Sanitizer|runtime error")
# A line's own time is no further than this from when it is read: seconds, on a machine that does other things too.
SKEW = 0.5


def port(state, number):
    """What a state says of a port."""
    return state["ports"][number - 1]


def carry(*numbers):
    """That these ports carry."""
    return lambda state: all(port(state, number)["carries"] for number in numbers)


def has_cause(number, *causes):
    """That a port has one of these causes."""
    return lambda state: port(state, number)["cause"] in causes


def warns(number, word):
    """That a port is told of with this warning."""
    return lambda state: word in port(state, number)["warnings"]


def is_not(holds):
    """The contrary."""
    return lambda state: not holds(state)


class State(NamedTuple):
    """A line: when it was read, how far its own time is from that, and what it says."""
    moment: float
    skew: float
    told: dict


class Bench:
    """What every part is given: the program, whether it is the one with sanitizers, whether time is short, a folder, and the checks."""

    def __init__(self, lacp, flood, checked, short, folder, checks):
        self.lacp, self.flood, self.checked, self.short = lacp, flood, checked, short
        self.folder, self.checks, self.started = Path(folder), checks, 0

    def tool(self, space, *words, before=()):
        """Starts a lacp in a namespace, with --json; `before` are words before its own."""
        return Tool(self, (*inside(space), *before, self.lacp, "--json", *words))

    def run(self, space, *words, before=()):
        """Runs a lacp that ends by itself: the number that it ended with, and what it said on both outputs."""
        done = subprocess.run((*inside(space), *before, self.lacp, *words), stdin=subprocess.DEVNULL, capture_output=True, text=True, timeout=20)
        self.hold_report(done.stderr)
        return done.returncode, done.stdout, done.stderr

    def errors(self):
        """A new file for what a program says on its error output."""
        self.started += 1
        return self.folder / f"errors.{self.started}"

    def hold_report(self, said):
        """A check of the program with sanitizers: they had nothing to report."""
        if self.checked:
            found = SANITIZER.search(said)
            self.checks.true(f"a sanitizer's report:\n{said}", not found)


class Tool(Program):
    """A running lacp; `lacp try` tells of two switches by name, otherwise there is one without."""

    def __init__(self, bench, words):
        self.bench, self.states, self.bad_lines = bench, [], []
        self.errors = bench.errors()
        self.started = time.monotonic()
        with self.errors.open("w") as file:
            super().__init__(words, stderr=file)

    def __exit__(self, *_):
        if self.process.poll() is None:
            self.bench.checks.equal("ends with", self.end(signal.SIGTERM), 0)
        self.over(5)
        self.hold_lines()

    def take(self, moment, line):
        try:
            told = json.loads(line)
            self.states.append(State(moment, time.time() - told["time"], told))
        except (ValueError, KeyError, TypeError) as error:
            self.bad_lines.append(f"{error!r}: {line!r}")

    def hold_lines(self):
        """Checks of what it told: every line fits the schema and tells the time, none was lost, and no sanitizer reported anything."""
        checks = self.bench.checks
        faults = self.bad_lines + [fault for state in self.states for fault in SCHEMA.faults(state.told)]
        checks.equal(f"faults in {len(self.states)} lines", faults[:3], [])
        checks.true("it told nothing", self.states)
        checks.true("a line has a wrong time", all(abs(state.skew) < SKEW for state in self.states))
        self.bench.hold_report(self.said())

    def said(self):
        """What it said on its error output."""
        return self.errors.read_text(errors="replace")

    def told(self, name=""):
        """The states that it told so far, of the switch of this name."""
        return [state for state in self.states if state.told["name"] == name]

    def last(self, name=""):
        """The newest state, which is waited for if there is none yet."""
        return self.await_news(lambda: next((state.told for state in reversed(self.states) if state.told["name"] == name), None), 2, "a first line")

    def since(self, moment, name=""):
        """The states that were in force at a moment or after it."""
        states = self.told(name)
        before = [state for state in states if state.moment < moment]
        return before[-1:] + states[len(before):]

    def wait_until(self, holds, seconds, since=None, name="", what="awaited"):
        """The moment from which a state held that was in force at `since`, which is now if it is not given, or later; no later than these seconds after that."""
        since = time.monotonic() if since is None else since

        def found():
            return next((max(state.moment, since) for state in self.since(since, name) if holds(state.told)), None)
        return self.await_news(found, since + seconds - time.monotonic(), f"{name} {what}".strip())

    def always(self, since, holds, name=""):
        """Whether every state in force from a moment on holds; there is one."""
        states = self.since(since, name)
        return bool(states) and all(holds(state.told) for state in states)

    def signal(self, number):
        """A signal; the moment in which it was sent."""
        self.process.send_signal(number)
        return time.monotonic()

    def end(self, number):
        """Ends it by a signal: the number that it ended with; a stopped one goes on first."""
        for each in (signal.SIGCONT, number):
            self.process.send_signal(each)
        try:
            return self.over(3)
        except subprocess.TimeoutExpired:
            self.kill()
            raise Failure("it does not end when it is told to") from None

    def resident(self):
        """How much memory it holds, in kB."""
        return int(re.search(r"VmRSS:\s*(\d+) kB", Path(f"/proc/{self.process.pid}/status").read_text()).group(1))


def both(tools, holds, seconds, since=None, what="awaited"):
    """The later of the moments from which it holds at each of these."""
    return max(tool.wait_until(holds, seconds, since, what=what) for tool in tools)
