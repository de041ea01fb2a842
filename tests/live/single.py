"""Parts about one lacp: what it hears, how it ends, what it may not do, and what it writes down."""

import shutil
import signal
import subprocess
import time
from collections import Counter
from pathlib import Path

import frames
import pcapng
from listener import LACPDU, MARKER, RESPONSE, Listener
from tap import Tap
from tool import HALF_DUPLEX, carry, has_cause, is_not, port, warns
from wires import Wires, command, has_tun, inside, looped

# Words that cannot be, each with one fault.
WRONG = ((), ("--nonsense", "b1"), ("--want", "3", "b1", "b2"), ("--want", "0", "b1"), ("--for", "soon", "b1"), ("--for", "0", "b1"), ("--key", "0", "b1"),
         ("--key", "b9=1", "b1"), ("--system", "01:00:00:00:00:01", "b1"), ("--every", "1", "b1"), ("--listen", "--want", "1", "b1"), ("b1", "b1"),
         ("--table",), ("--priority", "65536", "b1"), ("try", "b1"))
# Seconds: a trunk comes in two, and to leave it politely takes up to one more, since LACPDUs have just gone.
WANTED = 3.5
NO_RIGHTS = ("setpriv", "--inh-caps=-all", "--bounding-set=-all")
RAW_ALONE = ("setpriv", "--inh-caps=-all,+net_raw", "--bounding-set=-all,+net_raw")
AS_NOBODY = (*RAW_ALONE, "--reuid=65534", "--regid=65534", "--clear-groups", "--ambient-caps=-all,+net_raw")


def listen(bench):
    """B only listens: it tells who A is, and A hears nothing of it."""
    checks = bench.checks
    with Wires(2) as wires, bench.tool("A", "--key", "77", "--every", "0.5", *wires.ends("A")) as a, Listener("A", "a1") as first, Listener("A", "a2") as second:
        with bench.tool("B", "--listen", "--every", "0.5", *wires.ends("B")) as b:
            start = time.monotonic()
            b.wait_until(lambda state: all(each["partner"] for each in state["ports"]), 3, b.started, what="somebody is heard")
            time.sleep(0.3 if bench.short else 3)
            told, us = b.last(), a.last()["us"]
        for each in told["ports"]:
            checks.equal("system and key", (each["partner"]["system"], each["partner"]["key"]), (us["system"], 77))
            checks.true("A is heard", each["counters"]["lacpdus_received"] >= 1)
        checks.true("it says that it listens", told["us"]["listen"])
        checks.true("it sends", all(each["counters"]["lacpdus_sent"] == 0 and not each["carries"] for state in b.told() for each in state.told["ports"]))
        checks.equal("heard by A", sum(each["counters"]["lacpdus_received"] for each in a.last()["ports"]), 0)
        checks.equal("frames from B", len(first.frames) + len(second.frames), 0)
        checks.note(f"{sum(each['counters']['lacpdus_received'] for each in told['ports'])} heard in {time.monotonic() - start:.1f} s")


def filtered(bench):
    """An LACPDU with a VLAN tag, number 0 among them, to another address or of another type is not heard; the same without is."""
    tagged = [frames.frame(tag=frames.tag(number)) for number in (0, 5, 4094)]
    strange = [frames.frame(destination=frames.ELSEWHERE), frames.frame(kind=frames.OTHER_TYPE)]
    with Wires(1) as wires, bench.tool("A", "--listen", "--every", "0.2", *wires.ends("A")) as a:
        a.last()
        frames.send("B", "b1", *tagged, *strange)
        time.sleep(0.6)
        told = port(a.last(), 1)
        bench.checks.equal("heard", [told["counters"][name] for name in told["counters"] if name.endswith("received")], [0] * 5)
        bench.checks.equal("partner", told["partner"], None)
        frames.send("B", "b1", frames.frame())
        a.wait_until(lambda state: port(state, 1)["partner"] and port(state, 1)["partner"]["key"] == 9, 1, what="the one without a tag is heard")
        bench.checks.note(f"{len(tagged)} with a tag and {len(strange)} strange ones not heard")


def ends(bench, expected, least, most, *words, before=()):
    """A lacp with these words ends with this number, after so many seconds; what it said."""
    start = time.monotonic()
    number, _, said = bench.run("B", *words, before=before)
    took = time.monotonic() - start
    bench.checks.equal(f"{' '.join(words) or 'no words'}: ends with", number, expected)
    bench.checks.true(f"{' '.join(words)}: after {took:.2f} s, expected {least} to {most}", least <= took <= most)
    return said


def is_mapped(user):
    """Whether there is such a user in this user namespace."""
    ranges = (tuple(map(int, line.split())) for line in Path("/proc/self/uid_map").read_text().splitlines())
    return any(first <= user < first + count for first, _, count in ranges)


def want(bench):
    """What it ends with: as many links as wanted, too few of them, wrong words, no rights; the right to raw sockets is all that it needs."""
    checks, idle = bench.checks, "0.5" if bench.short else "1.5"
    with Wires(2) as wires:
        ends(bench, 1, float(idle), float(idle) + 0.5, "--want", "2", "--for", idle, *wires.ends("B"))
        for words in WRONG:
            checks.true(f"{words}: nothing is said", ends(bench, 2, 0, 1, *words))
        ends(bench, 0, 0, 1, "--help")
        checks.true("no rights: nothing is said", ends(bench, 3, 0, 1, "--for", "0.5", *wires.ends("B"), before=NO_RIGHTS))
        with bench.tool("A", *wires.ends("A")) as a:
            ends(bench, 0, 1.8, WANTED, "--want", "2", "--for", "10", *wires.ends("B"))
            ended = time.monotonic()
            if not bench.short:
                stopped = a.wait_until(lambda state: state["carrying"] == 0, 4, ended, what="A stops")
                checks.between("A stops when it has what was wanted and ends", stopped - ended, 0, 1.3)
                ends(bench, 0, 1.8, 9, "--want", "2", "--for", "10", *wires.ends("B"), before=AS_NOBODY if is_mapped(65534) else RAW_ALONE)
                checks.note(f"CAP_NET_RAW alone: as {'nobody' if is_mapped(65534) else 'root of a user namespace'}")


def kind_of(octets):
    """The counter that a frame to the Slow Protocols address belongs to, without its direction: docs/RULES.md."""
    subtype = octets[14] if len(octets) > 14 else None
    if octets[12:14] != b"\x88\x09" or subtype in range(3, 11):
        return "unknown"
    if len(octets) < 124:
        return "illegal"
    if subtype == LACPDU[0] and (octets[17], octets[37], octets[57]) == (20, 20, 16):
        return "lacpdus"
    kinds = {MARKER: "markers", RESPONSE: "marker_responses"}
    return kinds.get((subtype, octets[16]), "illegal") if octets[17] == 16 else "illegal"


def hold_counts(checks, told, every):
    """Each counter of each port in the last line is what the capture has of it up to then; what comes behind is one LACPDU of each port, by which it leaves."""
    packets = [packet for packet in every if packet.time <= told["time"]]
    left = [(packet.interface, packet.direction, kind_of(packet.octets)) for packet in every if packet.time > told["time"]]
    checks.equal("behind the last line", left, [(each["interface"], "out", "lacpdus") for each in told["ports"]])
    found = Counter((packet.interface, packet.direction, kind_of(packet.octets)) for packet in packets)
    for each in told["ports"]:
        counters = each["counters"]
        expected = {("in", kind): counters[f"{kind}_received"] for kind in ("lacpdus", "markers", "marker_responses", "unknown", "illegal")}
        expected["out", "lacpdus"] = counters["lacpdus_sent"]
        expected["out", "marker_responses"] = counters["marker_responses_sent"] - counters["responses_withheld"]
        for (direction, kind), number in expected.items():
            checks.equal(f"{each['interface']} {direction} {kind} in the capture", found[each["interface"], direction, kind], number)
        checks.equal("lost and failed", (counters["lost_in_queue"], counters["failed_sends"]), (0, 0))
    checks.equal("frames that count nowhere", len(packets), sum(number for number in found.values()))


def tshark(checks, path, count):
    """What tshark, if it is there, reads of the same file: as many frames, each with an interface and a direction."""
    if not shutil.which("tshark"):
        checks.note("no tshark here")
        return
    words = ("tshark", "-n", "-r", str(path), "-T", "fields", "-e", "frame.interface_name", "-e", "frame.packet_flags_direction")
    lines = subprocess.run(words, capture_output=True, text=True, check=True, timeout=30).stdout.splitlines()
    fields = [line.split("\t") for line in lines]
    checks.equal("frames that tshark reads", len(lines), count)
    checks.equal("interfaces and directions, by tshark", {field for name, direction in fields for field in (name, str(int(direction, 0)))},
                 {"b1", "b2", "1", "2"})
    checks.note(f"tshark reads {len(lines)}")


def pcap(bench):
    """B writes down what it hears and sends, Markers and odd frames among it: a capture with interface and direction, which counts what the counters do."""
    checks, path = bench.checks, bench.folder / "b.pcapng"
    with Wires(2) as wires, bench.tool("A", *wires.ends("A")), bench.tool("B", "--pcap", str(path), *wires.ends("B")) as b:
        begin = time.time()
        b.wait_until(carry(1, 2), 5, b.started, what="a trunk")
        for kind, rate in (("markers", "20"), ("random", "50")):
            subprocess.run(inside("A", bench.flood, "a1", kind, rate, "1"), check=True, capture_output=True, timeout=10)
        checks.equal("ends with", b.end(signal.SIGTERM), 0)
        names, packets = pcapng.read(path.read_bytes())
        checks.equal("interfaces", names, ["b1", "b2"])
        checks.true("times", packets and all(begin - 1 < packet.time < time.time() for packet in packets))
        checks.equal("the last line", b.last()["because"], "end")
        counters = port(b.last(), 1)["counters"]
        checks.true("Markers and odd frames came", counters["markers_received"] >= 15 and counters["illegal_received"] >= 30)
        hold_counts(checks, b.last(), packets)
        checks.note(f"{len(packets)} frames")
        tshark(checks, path, len(packets))


def loop(bench):
    """A cable between two ports of one system: both are told of with a warning."""
    with looped(), bench.tool("A", "l1", "l2") as a:
        moment = a.wait_until(lambda state: warns(1, "loop")(state) and warns(2, "loop")(state), 5, a.started, what="the warning")
        bench.checks.between("warned", moment - a.started, 0, 2.6)


def half(bench):
    """An interface at half duplex, and back at full: LACP is off there, and on again."""
    if not shutil.which("ethtool") or not has_tun():
        bench.checks.note("left out: no ethtool, or no /dev/net/tun that can be opened")
        return
    with Wires(0), Tap("A", "t0"):
        command("ip", "-n", "A", "link", "set", "t0", "up")
        with bench.tool("A", "t0") as a:
            a.wait_until(is_not(has_cause(1, HALF_DUPLEX)), 2, a.started)
            for duplex, holds in (("half", has_cause(1, HALF_DUPLEX)), ("full", is_not(has_cause(1, HALF_DUPLEX)))):
                moment = time.monotonic()
                command("ip", "netns", "exec", "A", "ethtool", "-s", "t0", "duplex", duplex)
                bench.checks.between(f"{duplex}: noticed", a.wait_until(holds, 3, moment, what=duplex) - moment, 0, 1.5)
                bench.checks.equal("duplex", port(a.last(), 1)["duplex"], duplex)


PARTS = {"listen": listen, "filter": filtered, "want": want, "pcap": pcap, "loop": loop, "half": half}
