"""Parts with a switch of others: Open vSwitch, and traffic through both."""

import json
import signal
import time
from contextlib import contextmanager

import ovs
from echo import RATE, Answers, Asks
from listener import Listener
from pairs import FORMS, GIVEN_UP, OFF, SHORT_TIMEOUT, WAIT, WAIT_OFF, hold_silenced, partner_ports
from tool import LINK_DOWN, both, carry, has_cause, is_not, port
from wires import Wires, command, has_tun, ip

OURS, THEIRS = "10.43.0.1", "10.43.0.2"
LATER = 1.5  # seconds: it looks at its links, and speaks, once a second
AFTER = 0.001  # seconds: what a line says is so from then on
FEW = 40  # packets of 400 that each link carries at least: one flow of eight


@contextmanager
def neighbours(bench, *words):
    """A lacp in A and Open vSwitch in B, on two cables, as their trunk stands; and how long that took."""
    folder = bench.folder / f"ovs.{bench.checks.part}"
    folder.mkdir()
    with Wires(2) as wires, ovs.Switch(str(folder)) as switch:
        switch.start()
        with bench.tool("A", *words, *wires.ends("A")) as a:
            took = a.wait_until(carry(1, 2), 6, a.started, what="a trunk") - a.started
            ovs.wait_for(lambda: switch.carries() == set(ovs.MEMBERS), "use both links")
            yield wires, a, switch, took


def hold_cut(bench, wires, a, switch):
    """A link is cut and mended: the other carries on at both ends."""
    for number, other in ((1, 2), (2, 1)):
        start = time.monotonic()
        wires.cut(number)
        bench.checks.between(f"link {number} cut: noticed", a.wait_until(has_cause(number, LINK_DOWN), 2, start) - start, 0, 0.3)
        time.sleep(1)
        bench.checks.equal("members in use", switch.carries(), {f"b{other}"})
        mended = time.monotonic()
        wires.mend(number)
        bench.checks.between("back", a.wait_until(carry(number), 4, mended) - mended, 0, LATER)
        ovs.wait_for(lambda: switch.carries() == set(ovs.MEMBERS), "use both links again")
        bench.checks.true(f"link {other} carries on", a.always(start, carry(other)))


def hold_silence(bench, wires, a, switch):
    """The second link is silent from Open vSwitch to us."""
    with Listener("A", "a2") as heard:
        start, defaulted = hold_silenced(bench.checks, wires, a, heard)
        wires.unsilence("B", 2)
        again = heard.first_after(defaulted, 4)
        bench.checks.between("carries", a.wait_until(carry(2), 5, again) - again, WAIT - WAIT_OFF, WAIT + WAIT_OFF)
        ovs.wait_for(lambda: switch.carries() == set(ovs.MEMBERS), "use both links again")
        bench.checks.true("link 1 carries on", a.always(start, carry(1)))


def hold_silence_both_ways(bench, wires, a, switch):
    """The first link is silent both ways: our second moves when the first is given up, and again when that is heard again."""
    with Listener("A", "a1") as heard:
        heard.first_after(time.monotonic(), 3)
        start = time.monotonic()
        for space in "AB":
            wires.silence(space, 1)
        silenced = time.monotonic()
        stopped = a.wait_until(is_not(carry(2)), 8, start, what="the second link moves")
        last = heard.last_before(silenced)
        bench.checks.between("silent both ways: moves", stopped - last, GIVEN_UP - OFF, GIVEN_UP + OFF)
        bench.checks.between("nothing carries for", a.wait_until(carry(2), 5, stopped + AFTER) - stopped, WAIT - OFF, WAIT + WAIT_OFF)
        ovs.wait_for(lambda: switch.carries() == {"b2"}, "use the second link alone")
        for space in "AB":
            wires.unsilence(space, 1)
        again = heard.first_after(stopped + WAIT, 32)
        stopped = a.wait_until(lambda state: state["carrying"] == 0, 3, again, what="nothing carries again")
        bench.checks.between("both carry", a.wait_until(carry(1, 2), 5, stopped + AFTER) - stopped, WAIT - OFF, WAIT + WAIT_OFF)
        ovs.wait_for(lambda: switch.carries() == set(ovs.MEMBERS), "use both links again")


def hold_stop(bench, a, switch, seconds):
    """We stand still for so long: it stops using both links, and uses them again soon after we go on."""
    stopped = a.signal(signal.SIGSTOP)
    time.sleep(SHORT_TIMEOUT + LATER)
    bench.checks.equal("members in use while we stand still", switch.carries(), set())
    time.sleep(stopped + seconds - time.monotonic())
    went_on = a.signal(signal.SIGCONT)
    ovs.wait_for(lambda: switch.carries() == set(ovs.MEMBERS), "use both links again")
    bench.checks.between(f"stopped for {seconds} s: in use", time.monotonic() - went_on, 0, LATER)
    a.wait_until(carry(1, 2), LATER, went_on + LATER, what="both links")


def hold_swap(bench, wires, a, switch):
    """Our cables change places: a trunk again, with its ports exchanged."""
    exchanged = partner_ports(a.last())[::-1]
    wires.swap("A")
    moment = time.monotonic()
    back = a.wait_until(lambda state: carry(1, 2)(state) and partner_ports(state) == exchanged, 6, moment, what="a trunk with ports exchanged")
    bench.checks.between("swapped: back", back - moment, 0, WAIT + LATER)
    ovs.wait_for(lambda: switch.carries() == set(ovs.MEMBERS), "use both links again")


def hold_gone(bench, wires, a, switch):
    """The second cable is gone with both its ends, and the first carries on; then there is another, and a trunk when the switch has opened its end again."""
    start = time.monotonic()
    wires.remove(2)
    bench.checks.between("gone: noticed", a.wait_until(lambda state: not port(state, 2)["there"], 2, start) - start, 0, 0.3)
    time.sleep(1)
    bench.checks.equal("members in use", switch.carries(), {"b1"})
    bench.checks.true("link 1 carries on", a.always(start, carry(1)))
    wires.add(2)
    switch.open_again()
    opened = time.monotonic()
    ovs.wait_for(lambda: switch.carries() == set(ovs.MEMBERS), "use both links again")
    bench.checks.between("there again: in use", time.monotonic() - opened, 0, WAIT + 2 * LATER)
    a.wait_until(carry(1, 2), LATER, what="both links")


def hold_kill(bench, a, switch, *words):
    """We are killed and go on with the table a second later: it uses both links throughout."""
    used = []
    a.kill()
    for _ in range(2):
        used.append(switch.carries())
        time.sleep(0.5)
    with bench.tool("A", *words) as again:
        for _ in range(8):
            time.sleep(0.5)
            used.append(switch.carries())
        bench.checks.true("we carry on", again.always(again.started + 0.5, carry(1, 2)))
        bench.checks.equal("killed: members in use, each half second", [sorted(each) for each in used], [sorted(ovs.MEMBERS)] * 10)
        bench.checks.note("killed: in use throughout")


def with_ovs(bench):
    """Open vSwitch at the other end, and all that befalls a trunk."""
    if not ovs.is_there():
        bench.checks.note("left out: no Open vSwitch here")
        return
    table = ("--table", str(bench.folder / "table beside Open vSwitch"))
    with neighbours(bench, *table) as (wires, a, switch, took):
        bench.checks.between("both carry in", took, WAIT - WAIT_OFF, FORMS + WAIT_OFF)
        hold_cut(bench, wires, a, switch)
        hold_silence(bench, wires, a, switch)
        hold_silence_both_ways(bench, wires, a, switch)
        hold_stop(bench, a, switch, 5)
        hold_stop(bench, a, switch, 9)
        hold_gone(bench, wires, a, switch)
        hold_swap(bench, wires, a, switch)
        hold_kill(bench, a, switch, *table, *wires.ends("A"))


def give_addresses(wires):
    """Addresses on the trunk at either end; the members themselves speak no IP and take none."""
    for space, name, address in (("A", "trunk0", OURS), ("B", "br0", THEIRS)):
        command("ip", "netns", "exec", space, "sysctl", "-qw", "net.ipv4.conf.all.arp_ignore=1", "net.ipv4.conf.all.rp_filter=1")
        for member in wires.ends(space):
            ip(space, "link", "set", member, "arp", "off")
        ip(space, "address", "add", f"{address}/24", "dev", name)
        ip(space, "link", "set", name, "up")


def packets(space, name):
    """How many packets left an interface so far, and how many came."""
    found, = json.loads(ip(space, "-j", "-s", "link", "show", name))
    return found["stats64"]["tx"]["packets"], found["stats64"]["rx"]["packets"]


def hold_echoes(bench, what, most, event=lambda: None, seconds=2):
    """Echoes for some seconds, with an event after the first: at most so many are lost, and none comes twice."""
    with Asks("A", THEIRS, seconds) as asks:
        time.sleep(1.2)
        moment = time.monotonic()
        event()
        result = asks.outcome()
    lost = result["lost"]
    bench.checks.equal(f"{what}: sent", result["sent"], seconds * RATE)
    bench.checks.true(f"{what}: lost {len(lost)}, {[f'{each - moment:.3f}' for each in lost[:5]]} s after it, expected at most {most}", len(lost) <= most)
    bench.checks.equal(f"{what}: twice", result["twice"], 0)
    bench.checks.note(f"{what}: {len(lost)} of {result['sent']} lost")


def hold_traffic(bench, wires, a):
    """Echoes at rest, over both links, and while each of them is cut and comes back, for as long as the tap waits before it sends there again and longer."""
    give_addresses(wires)
    with Answers("B", THEIRS):
        with Asks("A", THEIRS, 0.5) as asks:  # each learns where the other is
            asks.outcome()
        before = {name: packets("A", name) for name in ("a1", "a2")}
        hold_echoes(bench, "at rest", 0)
        for name, counts in before.items():
            sent, came = (now - then for now, then in zip(packets("A", name), counts, strict=True))
            bench.checks.true(f"{name} carries too little: {sent} out, {came} in", min(sent, came) >= FEW)
            bench.checks.note(f"{name} {sent} out, {came} in")
        for number in (1, 2):
            hold_echoes(bench, f"link {number} cut", 1, lambda number=number: wires.cut(number))
            hold_echoes(bench, "back", 1, lambda number=number: wires.mend(number), 4)
            a.wait_until(carry(1, 2), 3, what="both links")
    us = a.last()["us"]
    bench.checks.true(f"the tap's counts: {us}", us["tap"] == "trunk0" and us["tap_sent"] > 0 and us["tap_received"] > 0)


def traffic(bench):
    """Echoes through the trunk, between two lacp and between one and Open vSwitch: none is lost at rest, and at most one when a link is cut or comes back."""
    if not has_tun():
        bench.checks.note("left out: no /dev/net/tun that can be opened")
        return
    with Wires(2) as wires, bench.tool("A", "--tap", "trunk0", *wires.ends("A")) as a, bench.tool("B", "--tap", "br0", *wires.ends("B")) as b:
        both((a, b), carry(1, 2), 5, b.started, "a trunk")
        hold_traffic(bench, wires, a)
        ip("A", "link", "del", "trunk0")
        bench.checks.equal("without its tap it ends with", a.over(3), 2)
    if not ovs.is_there():
        bench.checks.note("no Open vSwitch here")
        return
    bench.checks.note("with Open vSwitch")
    with neighbours(bench, "--tap", "trunk0") as (wires, a, _, _):
        hold_traffic(bench, wires, a)


PARTS = {"ovs": with_ovs, "traffic": traffic}
