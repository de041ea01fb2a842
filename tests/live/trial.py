"""`lacp try`: two switches on four links in a namespace of their own, and the keys that disturb them."""

import subprocess
import time
from pathlib import Path

from checks import Failure
from pairs import AGAIN, FORMS, OFF, REST, SHORT_TIMEOUT, WAIT, WAIT_OFF, partner_ports
from tool import IS_EXPIRED, LINK_DOWN, Tool, carry, has_cause

ALL = (1, 2, 3, 4)
SPEAKS = 1.0  # seconds from one LACPDU to the next, so from the last one to the key at most


class Trial(Tool):
    """A running `lacp try --json`."""

    def __init__(self, bench):
        super().__init__(bench, ("setpriv", "--pdeathsig", "KILL", bench.lacp, "try", "--json", "--for", "60"))

    def press(self, keys):
        """Keys, one after the other; the moment before."""
        moment = time.monotonic()
        self.process.stdin.write(keys.encode())
        self.process.stdin.flush()
        return moment

    def both(self, holds, seconds, since, what):
        """The later of the moments from which it holds at A and at B."""
        return max(self.wait_until(holds, seconds, since, name, what) for name in "AB")


def running(program):
    """The processes that run this program."""
    found = []
    for each in Path("/proc").glob("[0-9]*/exe"):
        try:
            found += [each.parent.name] if each.resolve() == Path(program).resolve() else []
        except OSError:  # of another user, or over
            continue
    return found


def hold_none_left(bench, what):
    """No process of it is left, after a second at most."""
    end = time.monotonic() + 1
    while running(bench.lacp) and time.monotonic() < end:
        time.sleep(0.05)
    bench.checks.equal(f"{what}: processes left", running(bench.lacp), [])


def cut(checks, trial):
    """2 c, and c again: link 2 is cut, and mended."""
    start = trial.press("2c")
    checks.between("cut: noticed", trial.both(has_cause(2, LINK_DOWN), 2, start, "the cut") - start, 0, 0.5)
    mended = trial.press("c")
    checks.between("mended", trial.both(carry(*ALL), 3, mended, "mended") - mended, 0, 0.5)
    for name in "AB":
        checks.true("the others carry on", trial.always(start, carry(1, 3, 4), name))


def silence(checks, trial):
    """3 s, and s again: link 3 is silent from B to A, and is heard again."""
    start = trial.press("3s")
    expired = trial.wait_until(has_cause(3, IS_EXPIRED), 5, start, "A", "EXPIRED")
    checks.between("silence: EXPIRED", expired - start, SHORT_TIMEOUT - SPEAKS - OFF, SHORT_TIMEOUT + OFF)
    heard = trial.press("s")
    checks.between("heard", trial.both(carry(*ALL), 5, heard, "heard") - heard, 0, SPEAKS + WAIT + WAIT_OFF)
    for name in "AB":
        checks.true("the others carry on", trial.always(start, carry(1, 2, 4), name))


def swap(checks, trial):
    """1 x: the cables of links 1 and 2 change places."""
    start = trial.press("1x")
    moment = trial.both(lambda state: carry(*ALL)(state) and partner_ports(state) == [2, 1, 3, 4], 5, start, "ports exchanged")
    checks.between("swapped", moment - start, 0, AGAIN + WAIT_OFF)


def stop(checks, trial):
    """z, and z again: B stands still, and goes on."""
    start = trial.press("z")
    expired = max(trial.wait_until(has_cause(number, IS_EXPIRED), 5, start, "A", "EXPIRED") for number in ALL)
    checks.between("stopped: EXPIRED", expired - start, SHORT_TIMEOUT - SPEAKS - OFF, SHORT_TIMEOUT + OFF)
    went_on = trial.press("z")
    checks.between("goes on", trial.wait_until(carry(*ALL), 5, went_on, "A", "a trunk") - went_on, 0, 0.7)
    trial.wait_until(carry(*ALL), 3, went_on + 0.5, "B", "a trunk")


def kill(checks, trial):
    """k: B is killed and goes on with its table; A sees nothing."""
    start = trial.press("k")
    trial.wait_until(lambda state: state["because"] == "start", 3, start, "B", "another B")
    time.sleep(4)
    checks.true("killed: A sees nothing", trial.always(start, carry(*ALL), "A"))
    checks.true("killed: B carries", carry(*ALL)(trial.last("B")))


def lines(bench):
    """Without --json and a terminal: lines that say which of the two they are about."""
    words = (bench.lacp, "try", "--for", "2.5")
    done = subprocess.run(words, stdin=subprocess.DEVNULL, capture_output=True, text=True, timeout=20)
    bench.checks.equal("lines: ends with", done.returncode, 0)
    found = {line[:3] for line in done.stdout.splitlines()}
    bench.checks.equal("what lines begin with", found, {"A: ", "B: "})
    bench.hold_report(done.stderr)
    hold_none_left(bench, "after its time")


def trial(bench):
    """A trunk of four, and every key."""
    checks = bench.checks
    with Trial(bench) as running_trial:
        took = running_trial.both(carry(*ALL), 6, running_trial.started, "a trunk of four") - running_trial.started
        checks.between("four carry in", took, WAIT - WAIT_OFF, FORMS + WAIT_OFF)
        for part in (cut, silence, swap, stop, kill):
            time.sleep(REST)
            part(checks, running_trial)
        running_trial.press("q")
        checks.equal("q: ends with", running_trial.over(3), 0)
    hold_none_left(bench, "after q")
    with Trial(bench) as running_trial:
        running_trial.both(lambda state: True, 3, running_trial.started, "both tell something")
        if len(running(bench.lacp)) < 2:
            raise Failure("fewer than two processes run in a trial")
        running_trial.kill()
    hold_none_left(bench, "after it was killed")
    lines(bench)


PARTS = {"try": trial}
