"""Parts about two lacp, A and B, joined by some cables: how a trunk comes, and what befalls it."""

import random
import signal
import time
from contextlib import contextmanager

from listener import Listener
from tool import CARRIES, IS_DEFAULTED, IS_EXPIRED, LINK_DOWN, both, carry, has_cause, is_not, port
from wires import Wires

# Seconds: a silent partner is noticed, is given up, and a port waits before it carries; what a measurement may be off by.
SHORT_TIMEOUT, GIVEN_UP, WAIT = 3.0, 6.0, 2.0
OFF, WAIT_OFF = 0.35, 0.5
# Seconds until a program tells its first line; until a trunk is there after the later of these lines, and after an event that drops it.
STARTS, FORMS, AGAIN = 0.5, 2.2, 2.6
# So long after it came a trunk is at rest: no port is barred from speaking, as after three LACPDUs in a second.
REST = 1.2
RANDOM = random.Random(43)


def partner_ports(state):
    """The numbers that the partners' ports have, in order of ours; None where there is none."""
    return [each["partner"] and each["partner"]["port"] for each in state["ports"]]


def hold_trunk(checks, one, other, links):
    """Checks of what one end says of a trunk: all ports are of it, each joined to the same port of the other end, and there is nothing to warn of."""
    told, numbers = one.last(), list(links)
    checks.equal("how many carry", told["carrying"], len(numbers))
    checks.equal("trunks", [trunk["carrying"] for trunk in told["trunks"] if trunk["carrying"]], [numbers])
    checks.equal("causes", {each["cause"] for each in told["ports"]}, {CARRIES})
    checks.equal("partners' ports", partner_ports(told), numbers)
    checks.equal("partners' systems", {each["partner"]["system"] for each in told["ports"]}, {other.last()["us"]["system"]})
    checks.equal("warnings", [word for each in told["ports"] for word in each["warnings"]], [])


@contextmanager
def pair(bench, links, *words, rest=REST):
    """A trunk of so many cables between A and B, two seconds after the later start, and then at rest."""
    with Wires(links) as wires, bench.tool("A", *words, *wires.ends("A")) as a, bench.tool("B", *words, *wires.ends("B")) as b:
        formed = both((a, b), carry(*wires.links), 5, b.started, "a trunk")
        began = b.told()[0].moment
        bench.checks.true(f"its first line comes after {began - b.started:.2f} s", began - b.started < STARTS)
        bench.checks.between(f"{links} carry in", formed - began, WAIT - 0.2, FORMS)
        hold_trunk(bench.checks, a, b, wires.links)
        hold_trunk(bench.checks, b, a, wires.links)
        time.sleep(rest)
        yield wires, a, b


def links(bench):
    """All links carry at both ends, two seconds after the later start."""
    for count in range(1, 9):
        with pair(bench, count, rest=0):
            pass


def cut(bench):
    """A link is cut: the other carries on without a break at both ends, also when the first is back, which is at once."""
    with pair(bench, 2) as (wires, a, b):
        for number, other in ((2, 1), (1, 2)):
            start = time.monotonic()
            wires.cut(number)
            bench.checks.between(f"link {number}: noticed", both((a, b), has_cause(number, LINK_DOWN), 1, start) - start, 0, 0.3)
            time.sleep(0.5 if bench.short else 3)
            mended = time.monotonic()
            wires.mend(number)
            bench.checks.between("back", both((a, b), carry(number), 3, mended) - mended, 0, 0.3)
            time.sleep(0.2)
            for tool in (a, b):
                bench.checks.true(f"link {other} carries on", tool.always(start, carry(other)))


def hold_silenced(checks, wires, a, heard):
    """The second link falls silent from B to A, where `heard` listens: A notices, and gives up. When it began, and when it was given up."""
    heard.first_after(time.monotonic(), 3)
    start = time.monotonic()
    wires.silence("B", 2)
    silenced = time.monotonic()
    expired = a.wait_until(has_cause(2, IS_EXPIRED), 5, start, what="EXPIRED")
    last = heard.last_before(silenced)
    checks.between("EXPIRED", expired - last, SHORT_TIMEOUT - OFF, SHORT_TIMEOUT + OFF)
    defaulted = a.wait_until(has_cause(2, IS_DEFAULTED), 5, expired, what="DEFAULTED")
    checks.between("DEFAULTED", defaulted - last, GIVEN_UP - OFF, GIVEN_UP + OFF)
    return start, defaulted


def silence_one_way(bench):
    """The second link is silent from B to A: A notices, gives up, and carries again two seconds after it hears it; the first link is undisturbed."""
    checks = bench.checks
    with pair(bench, 2) as (wires, a, b), Listener("A", "a2") as heard:
        start, defaulted = hold_silenced(checks, wires, a, heard)
        checks.true("B does not carry into the silence", is_not(carry(2))(b.last()))
        wires.unsilence("B", 2)
        heard_again = heard.first_after(defaulted, 3)
        checks.between("carries", both((a, b), carry(2), 5, heard_again) - heard_again, WAIT - WAIT_OFF, WAIT + WAIT_OFF)
        checks.true("B counts sends that failed", port(b.last(), 2)["counters"]["failed_sends"] > 0)
        checks.true("link 1 carries on", a.always(start, carry(1)) and b.always(start, carry(1)))


def silence_both_ways(bench):
    """The first link is silent both ways: the second moves when its partner is given up, at either end, and nothing carries for two seconds; and again when
    the first is heard again."""
    checks = bench.checks
    with pair(bench, 2) as (wires, a, b), Listener("A", "a1") as at_a, Listener("B", "b1") as at_b:
        for listener in (at_a, at_b):
            listener.first_after(time.monotonic(), 2)
        start = time.monotonic()
        for space in "AB":
            wires.silence(space, 1)
        silenced = time.monotonic()
        stopped = [tool.wait_until(is_not(carry(2)), 8, start, what="the second link moves") for tool in (a, b)]
        moved = both((a, b), lambda state: state["carrying"] == 1 and carry(2)(state), 5, max(stopped), "the second link has moved")
        lasts = [listener.last_before(silenced) for listener in (at_a, at_b)]
        checks.between("moves", min(stopped) - min(lasts), GIVEN_UP - OFF, GIVEN_UP + OFF)
        checks.true("both ends stop together", max(stopped) - min(stopped) < 0.1)
        checks.between("nothing carries for", moved - max(lasts) - GIVEN_UP, WAIT - OFF, WAIT + WAIT_OFF)
        for tool in (a, b):
            checks.true("it is noticed first", any(has_cause(1, IS_EXPIRED)(state.told) and carry(2)(state.told) for state in tool.since(start)))
        mended = time.monotonic()
        for space in "AB":
            wires.unsilence(space, 1)
        heard = [listener.first_after(mended, 3) for listener in (at_a, at_b)]
        again = both((a, b), lambda state: state["carrying"] == 0, 3, mended, "nothing carries again")
        checks.between("moves back", again - min(heard), -0.05, OFF)
        checks.between("both carry", both((a, b), carry(1, 2), 5, again) - max(heard), WAIT - OFF, WAIT + WAIT_OFF)


def stop(bench, seconds, within):
    """B stands still for so long: A notices, and gives it up if it is for long enough; the trunk is back soon after B goes on, and B knows what it missed."""
    checks = bench.checks
    with pair(bench, 2, "--every", "0.5") as (_, a, b), Listener("A", "a1") as first, Listener("A", "a2") as second:
        for listener in (first, second):
            listener.first_after(time.monotonic(), 2)
        stopped = b.signal(signal.SIGSTOP)
        for number, listener in ((1, first), (2, second)):
            expired = a.wait_until(has_cause(number, IS_EXPIRED), 5, stopped, what="EXPIRED")
            last = listener.last_before(expired)
            checks.between("EXPIRED", expired - last, SHORT_TIMEOUT - OFF, SHORT_TIMEOUT + OFF)
            if seconds > GIVEN_UP:
                defaulted = a.wait_until(has_cause(number, IS_DEFAULTED), 5, expired, what="DEFAULTED")
                checks.between("DEFAULTED", defaulted - last, GIVEN_UP - OFF, GIVEN_UP + OFF)
        time.sleep(stopped + seconds - time.monotonic())
        went_on = b.signal(signal.SIGCONT)
        checks.between("back", a.wait_until(carry(1, 2), 5, went_on, what="a trunk") - went_on, 0, within)
        time.sleep(0.7)
        checks.true("the trunk stands at both ends", carry(1, 2)(a.last()) and carry(1, 2)(b.last()))
        checks.between("missed ticks", b.last()["missed"], seconds * 10 - 4, seconds * 10 + 1)


def stop_5(bench):
    """B stands still for five seconds."""
    stop(bench, 5, 0.5)


def stop_9(bench):
    """And for nine."""
    stop(bench, 9, AGAIN)


def damage(table):
    """What may become of a table's file: its name, and its octets."""
    yield "other octets", RANDOM.randbytes(len(table))
    yield "half of it", table[:len(table) // 2]
    yield "one octet", table[:1]
    yield "more of it", table + table
    yield "other octets behind its first 16", table[:16] + RANDOM.randbytes(len(table) - 16)


def damaged(bench, wires, table, kept):
    """A table that is damaged, or of another number of ports, is refused: lacp says so, and starts anew or ends with 2."""
    cases = [(name, octets, wires.ends("B")) for name, octets in damage(kept)]
    for name, octets, ends in (*cases, ("another number of ports", kept, ["b1"])):
        table.write_bytes(octets)
        number, _, said = bench.run("B", "--table", str(table), "--for", "0.1", *ends)
        bench.checks.true(f"a table of {name}: ends with {number}", number in (0, 2))
        bench.checks.true(f"a table of {name}: says nothing of it", said)


def killed(bench, wires, a, table, seconds):
    """A B that goes on with its table, so many seconds after it was killed: itself, and when the one before was killed."""
    words = ("--table", str(table), *wires.ends("B"))
    with bench.tool("B", *words) as b:
        both((a, b), carry(1, 2), 5, b.started, "a trunk")
        time.sleep(0.3)
        moment = time.monotonic()
        b.kill()
        time.sleep(seconds)
    return moment, bench.tool("B", *words)


def kill(bench):
    """B is killed and goes on with its table a second later: A sees nothing of it. After eight seconds the trunk is back as after a start."""
    checks, table = bench.checks, bench.folder / "table"
    with Wires(2) as wires, bench.tool("A", "--table", str(bench.folder / "table of A"), *wires.ends("A")) as a:
        moment, again = killed(bench, wires, a, table, 1)
        with again as b:
            b.wait_until(carry(1, 2), 2, b.started, what="goes on")
            lines = [carry(1, 2)(state.told) for state in b.told()]
            checks.true(f"carries at its first line or its second: {lines}", any(lines[:2]))
            time.sleep(0.7 if bench.short else 4)
            checks.true("A sees nothing", a.always(moment, carry(1, 2)))
            checks.true("B carries on", b.always(b.started + 0.5, carry(1, 2)))
            kept = table.read_bytes()
        if not bench.short:
            moment, again = killed(bench, wires, a, table, 8)
            with again as b:
                checks.true("A has given it up", any(has_cause(1, IS_DEFAULTED)(state.told) for state in a.since(moment)))
                checks.between("back", both((a, b), carry(1, 2), 5, b.started, "a trunk") - b.started, 0, AGAIN)
                checks.true("its first line does not carry", is_not(carry(1))(b.told()[0].told))
        damaged(bench, wires, table, kept)


def swap(bench):
    """B's cables change places: a trunk again, with the partners' ports exchanged."""
    with pair(bench, 2) as (wires, a, b):
        wires.swap("B")
        moment = time.monotonic()
        back = both((a, b), lambda state: carry(1, 2)(state) and partner_ports(state) == [2, 1], 5, moment, "a trunk with ports exchanged")
        bench.checks.between("back", back - moment, 0, AGAIN)


def gone(bench):
    """The second cable is gone with both its interfaces, and there is another with the same names: port 2 is back; port 1 is undisturbed."""
    with pair(bench, 2) as (wires, a, b):
        start = time.monotonic()
        wires.remove(2)
        left = both((a, b), lambda state: not port(state, 2)["there"] and not port(state, 2)["carries"], 2, start, "gone")
        bench.checks.between("noticed", left - start, 0, 0.3)
        time.sleep(1)
        made = time.monotonic()
        wires.add(2)
        bench.checks.between("back", both((a, b), lambda state: port(state, 2)["there"] and carry(2)(state), 5, made, "back") - made, 0, AGAIN)
        bench.checks.true("port 1 carries on", a.always(start, carry(1)) and b.always(start, carry(1)))


def polite(bench):
    """B is told to end: A stops sending at once, and B ends with 0. Just after it came, when it has said all that it may for a second, B says it by then."""
    checks = bench.checks
    with Wires(2) as wires, bench.tool("A", *wires.ends("A")) as a:
        for number, rest, within in ((signal.SIGTERM, 0, 1.3), (signal.SIGTERM, REST, 0.2), (signal.SIGINT, REST, 0.2)):
            with bench.tool("B", *wires.ends("B")) as b:
                both((a, b), carry(1, 2), 9, b.started, "a trunk")
                time.sleep(rest)
                moment = b.signal(number)
                stopped = a.wait_until(lambda state: state["carrying"] == 0, 5, moment, what="A stops")
                checks.between(f"{number.name} after {rest} s: A stops", stopped - moment, 0, within)
                checks.equal("ends with", b.over(3), 0)
                checks.equal("its last line", b.last()["because"], "end")


PARTS = {"links": links, "cut": cut, "silence-one-way": silence_one_way, "silence-both-ways": silence_both_ways, "stop-5": stop_5, "stop-9": stop_9,
         "kill": kill, "swap": swap, "gone": gone, "polite": polite}
