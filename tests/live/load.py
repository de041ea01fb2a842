"""A flood on one port of a trunk of two: no tick is missed, the trunk stands, and memory does not grow; of more than it can take, ticks and memory do not suffer."""

import json
import os
import subprocess
import time
from pathlib import Path

from listener import LACPDU, RESPONSE, Listener
from pairs import pair
from tool import both, carry, warns
from wires import inside, ip

KINDS = ("random", "malformed", "repeat", "markers", "forged")
RATE, ALL_THAT_GO = 100_000, 1_000_000  # a second
LATEST = 25  # milliseconds by which a tick may be late, where a processor is not enough
MOST_GROWTH = 64  # kB
MOST_RESPONSES, STAMP_OFF = 5, 0.05  # in any one second
# Seconds after the last forged frame: the neighbour speaks within one, and a port waits for two.
RECOVERED = 3.5


def arrived(name):
    """How many frames came to an interface of A so far."""
    found, = json.loads(ip("A", "-j", "-s", "link", "show", name))
    return found["stats64"]["rx"]["packets"]


def processor(tool):
    """The seconds of a processor that a lacp has used so far."""
    fields = Path(f"/proc/{tool.process.pid}/stat").read_text().rsplit(")", 1)[1].split()
    return (int(fields[11]) + int(fields[12])) / os.sysconf("SC_CLK_TCK")


def most_in_a_second(moments):
    """The most of these moments that lie within one second, less what a moment may be off by while both processors are busy."""
    return max((sum(first <= moment < first + 1 - STAMP_OFF for moment in moments) for first in moments), default=0)


def flood(bench, a, kind, rate, seconds, *words):
    """Floods A's first port: how many frames were sent, how many arrived, by how many kB A grew from the first second on, and which part of a processor it took."""
    came, used = arrived("a1"), processor(a)
    with subprocess.Popen(inside("B", bench.flood, "b1", kind, str(rate), str(seconds), *words), stdout=subprocess.PIPE) as process:
        time.sleep(1)
        resident = a.resident()
        sent = int(process.communicate(timeout=seconds + 10)[0])
    return sent, arrived("a1") - came, a.resident() - resident, (processor(a) - used) / seconds


def hold_flood(bench, kind, a, result):
    """Checks of what a flood of a kind did, but for the trunk."""
    checks, (sent, came, growth, share) = bench.checks, result
    time.sleep(1.2)  # a line more
    told = a.last()
    checks.true(f"{kind}: {sent} were sent and {came} arrived, which is no flood", came >= sent * 0.99)
    checks.equal(f"{kind}: missed ticks", told["missed"], 0)
    checks.true(f"{kind}: grew by {growth} kB", growth <= MOST_GROWTH)
    checks.true(f"{kind}: a tick came {told['latest_ms']} ms late", told["latest_ms"] < LATEST)
    lost = told["ports"][0]["counters"]["lost_in_queue"]
    checks.note(f"{kind}: {sent} sent, {lost} lost in the queue, latest tick {told['latest_ms']:.1f} ms, {growth} kB more, {share:.0%} of a processor")


def hold_stands(bench, kind, tools, start):
    """Both links carry throughout, at both ends."""
    for tool in tools:
        bench.checks.true(f"{kind}: the trunk stands", len(tool.since(start)) > 2 and tool.always(start, carry(1, 2)))


def hold_responses(bench, responses):
    """Markers are answered, though not more often than allowed."""
    most = most_in_a_second([frame.moment for frame in responses])
    bench.checks.true(f"{most} Responses in one second, expected 1 to {MOST_RESPONSES}", 1 <= most <= MOST_RESPONSES)
    bench.checks.note(f"{len(responses)} Responses, at most {most} in a second")


def hold_forged(bench, a, b, start):
    """It is told that the partner changes, and the trunk is back when the flood is over."""
    end = time.monotonic()
    a.wait_until(warns(1, "partner-changes"), 0.1, start, what="partner-changes")
    back = both((a, b), carry(1, 2), RECOVERED, end, "a trunk after forged frames")
    bench.checks.note(f"back after {back - end:.2f} s")


def flooded(bench, kind, rate, seconds):
    """One kind of flood on a trunk of its own."""
    with pair(bench, 2, "--every", "1") as (_, a, b), Listener("A", "a1") as heard, Listener("B", "b1") as responses:
        heard.first_after(time.monotonic(), 2)
        words = (heard.of(LACPDU)[-1].octets.hex(),) if kind == "repeat" else ()
        heard.kill()
        time.sleep(0.2)
        start = time.monotonic()
        result = flood(bench, a, kind, rate, seconds, *words)
        bench.checks.true(f"{kind}: only {result[0]} could be sent", result[0] >= 0.9 * RATE * seconds)
        if kind == "forged":
            hold_forged(bench, a, b, start)
        hold_flood(bench, kind, a, result)
        if kind != "forged" and rate == RATE:
            hold_stands(bench, kind, (a, b), start)
        if kind == "markers":
            hold_responses(bench, responses.of(RESPONSE))


def load(bench):
    """Every kind of flood, and forged frames as many as go."""
    seconds = 3 if bench.short else 30
    for kind in KINDS:
        flooded(bench, kind, RATE, seconds)
    flooded(bench, "forged", ALL_THAT_GO, min(seconds, 10))


PARTS = {"load": load}
