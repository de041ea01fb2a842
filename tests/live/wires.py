"""Two namespaces, A and B, joined by cables a1-b1, a2-b2 and so on, and what befalls a cable.

Namespaces are `ip netns`, which keeps them under /run/netns. tools/live.sh runs everything in a network and a mount namespace of its own, with an empty
/run of its own: so it works as any user whom the machine lets have a user namespace (in which that user is root; nothing else is mapped), it works as root
without one, and either way nothing is left behind on the machine, even if it is killed. Each part of the test has its namespaces A and B anew.
"""

import subprocess
from contextlib import contextmanager
from pathlib import Path

OF = {"A": "a", "B": "b"}
# Of a carrier that goes or comes the kernel tells at once if the two ends of a cable have different numbers; otherwise it takes up to a second.
FIRST_INDEX = {"A": 100, "B": 200}


def command(*words):
    """Runs a program that ends."""
    done = subprocess.run(words, capture_output=True, text=True, timeout=20)
    if done.returncode:
        raise RuntimeError(f"{' '.join(words)}: {done.stderr.strip()}")
    return done.stdout


def ip(space, *words):
    """ip in a namespace."""
    return command("ip", "-n", space, *words)


def inside(space, *words):
    """The command line that runs a program in a namespace, though never longer than this one."""
    return ("setpriv", "--pdeathsig", "KILL", "ip", "netns", "exec", space, *words)


def address(space, number):
    """The address of an end of a cable."""
    return f"02:00:00:00:0{space.lower()}:{number:02x}"


def has_tun():
    """Whether a tap can be made here: a user namespace does not open what the user outside may not."""
    try:
        with Path("/dev/net/tun").open("r+b", buffering=0):
            return True
    except OSError:
        return False


class Wires:
    """So many cables between A and B, all of them up."""

    def __init__(self, links):
        self.links, self.made = range(1, links + 1), 0

    def __enter__(self):
        for space in OF:
            command("ip", "netns", "add", space)
            command("ip", "netns", "exec", space, "sysctl", "-qw", "net.ipv6.conf.all.disable_ipv6=1", "net.ipv6.conf.default.disable_ipv6=1")
        for number in self.links:
            self.add(number)
        return self

    def __exit__(self, *_):
        for space in OF:
            command("ip", "netns", "del", space)

    def ends(self, space):
        """The names of one side's ends, in order."""
        return [f"{OF[space]}{number}" for number in self.links]

    def add(self, number):
        """A new cable, which is up. Its ends have indexes that none had before."""
        self.made += 1
        command("ip", "link", "add", f"a{number}", "netns", "A", "index", str(FIRST_INDEX["A"] + self.made), "address", address("A", number),
                "type", "veth", "peer", "name", f"b{number}", "netns", "B", "index", str(FIRST_INDEX["B"] + self.made), "address", address("B", number))
        for space, letter in OF.items():
            ip(space, "link", "set", f"{letter}{number}", "up")

    def remove(self, number):
        """A cable and both its ends are gone."""
        ip("B", "link", "del", f"b{number}")

    def cut(self, number):
        """Both ends lose the carrier at once."""
        ip("A", "link", "set", f"a{number}", "down")

    def mend(self, number):
        """And have it again."""
        ip("A", "link", "set", f"a{number}", "up")

    def silence(self, space, number):
        """Nothing leaves this end any more, and both ends keep the carrier."""
        command("tc", "-n", space, "qdisc", "add", "dev", f"{OF[space]}{number}", "root", "pfifo", "limit", "0")

    def unsilence(self, space, number):
        """What is sent leaves again."""
        command("tc", "-n", space, "qdisc", "del", "dev", f"{OF[space]}{number}", "root")

    def swap(self, space):
        """Cables 1 and 2 change places at one side."""
        first, second = self.ends(space)[:2]
        for name in (first, second):
            ip(space, "link", "set", name, "down")
        for old, new in ((first, "aside"), (second, first), ("aside", second)):
            ip(space, "link", "set", old, "name", new)
        for name in (first, second):
            ip(space, "link", "set", name, "up")


@contextmanager
def looped():
    """A cable from l1 to l2, both in A."""
    with Wires(0):
        ip("A", "link", "add", "l1", "type", "veth", "peer", "name", "l2")
        for name in ("l1", "l2"):
            ip("A", "link", "set", name, "up")
        yield
