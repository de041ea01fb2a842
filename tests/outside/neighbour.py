"""Open vSwitch as a neighbour: a bond of two links, without root, without a kernel module, and with a clock that only we move.

ovsdb-server and ovs-vswitchd run in a folder of their own. The two members of the bond are 'dummy' interfaces: each is a socket that carries
frames, each behind its length in two octets. ovs-vswitchd is asked over its control socket, as ovs-appctl does it.
"""

import json
import os
import re
import select
import socket
import subprocess
import time
from pathlib import Path

from switch import BITS, Block, bit

os.environ["PATH"] += ":/usr/sbin:/sbin"
SCHEMA = "/usr/share/openvswitch/vswitch.ovsschema"

# What the neighbour is told to say of itself: of the system and the bond, and of each member its port and port priority.
SYSTEM_PRIORITY, SYSTEM, KEY = 0x1234, bytes.fromhex("0a0102030405"), 0x0515
MEMBERS = {"p1": (0x0717, 0x0123), "p2": (0x0718, 0x0124)}
# lacp/show's words for the bits of a state.
WORDS = tuple({"synchronization": "synchronized"}.get(name, name) for name in BITS)
# In one turn of its main loop the neighbour reads half a frame of a link (the length, then the rest) or sends one, and does what follows from a
# frame in the next. So many turns are enough for three frames each way.
TURNS = 12


def wait_for(holds, what):
    """Waits, at most ten seconds, until it holds."""
    end = time.monotonic() + 10
    while not holds():
        if time.monotonic() > end:
            raise RuntimeError(f"the neighbour did not {what}")
        time.sleep(0.01)


class Control:
    """The control socket of ovs-vswitchd."""

    def __init__(self, path):
        self.socket = socket.socket(socket.AF_UNIX)
        self.socket.settimeout(10)
        self.socket.connect(path)

    def __enter__(self):
        return self

    def __exit__(self, *_):
        self.socket.close()

    def ask(self, method, *words):
        """One request: the text that it is answered."""
        self.socket.sendall(json.dumps({"id": 0, "method": method, "params": words}).encode())
        text = b""
        while True:
            part = self.socket.recv(65536)
            if not part:
                raise RuntimeError(f"the neighbour ended at {method}")
            text += part
            try:
                answer = json.loads(text)
                break
            except ValueError:
                continue
        if answer["error"] is not None:
            raise RuntimeError(f"{method}: {answer['error']}")
        return answer["result"]


class Member:
    """What lacp/show and bond/show say of one member of the bond."""

    def __init__(self, lacp, bond):
        self.status = lacp.split("\n", 1)[0]
        self.may_enable = self.field(lacp, "may_enable") == "true"
        self.enabled = bond.startswith("enabled")
        self.actor, self.partner = self.block(lacp, "actor"), self.block(lacp, "partner")

    @staticmethod
    def field(text, name):
        """The value after 'name:'."""
        return re.search(rf"^ *{name}:(.*)$", text, re.MULTILINE).group(1).strip()

    def block(self, text, side):
        """The actor's or the partner's information."""
        priority, key, port_priority, port = (int(self.field(text, f"{side} {name}"))
                                              for name in ("sys_priority", "key", "port_priority", "port_id"))
        system = bytes.fromhex(self.field(text, f"{side} sys_id").replace(":", ""))
        state = sum(bit(BITS[WORDS.index(word)]) for word in self.field(text, f"{side} state").split())
        return Block(priority, system, key, port_priority, port, state)

    def carries(self):
        """Whether the neighbour uses the link: 'current attached', may be enabled, and is."""
        return self.status == "current attached" and self.may_enable and self.enabled


class Neighbour:
    """Open vSwitch in the folder given. It stands still but for warp."""

    def __init__(self, folder):
        self.folder = Path(folder)
        self.processes, self.control, self.links = {}, None, {}
        self.environment = os.environ | {name: folder for name in ("OVS_RUNDIR", "OVS_DBDIR", "OVS_LOGDIR", "OVS_SYSCONFDIR")}

    def __enter__(self):
        return self

    def __exit__(self, *_):
        for program in list(self.processes):
            self.kill(program)

    def start(self):
        """Starts the neighbour with an empty database."""
        self.command("ovsdb-tool", "create", self.path("conf.db"), SCHEMA)
        self.launch("ovsdb-server", self.path("conf.db"), f"--remote=punix:{self.path('db.sock')}")
        self.begin()

    def path(self, name):
        """A file in the neighbour's folder."""
        return str(self.folder / name)

    def command(self, *words):
        """Runs a program that ends."""
        subprocess.run(words, check=True, env=self.environment, timeout=20)

    def launch(self, program, *words):
        """Starts a program that stays, though never longer than this one, and waits until it can be asked."""
        control = self.folder / f"{program}.ctl"
        control.unlink(missing_ok=True)
        words = ("setpriv", "--pdeathsig", "KILL", program, *words, f"--unixctl={control}", f"--log-file={self.path(program)}.log",
                 "-vconsole:off")
        self.processes[program] = subprocess.Popen(words, env=self.environment, stderr=subprocess.DEVNULL)
        wait_for(control.exists, f"start {program}")

    def kill(self, program):
        """Ends a program at once, as a power failure does."""
        process = self.processes.pop(program)
        process.kill()
        process.wait()

    def begin(self):
        """Starts ovs-vswitchd, stops its clock, and only then gives it the bond, so that its timers begin at our ticks. Cables come last."""
        self.launch("ovs-vswitchd", f"unix:{self.path('db.sock')}", "--enable-dummy=override", "--disable-system")
        self.control = Control(self.path("ovs-vswitchd.ctl"))
        self.control.ask("time/stop")
        self.configure("add-br", "br0", "--", "set", "bridge", "br0", "datapath_type=dummy", *self.bond())
        self.turn()
        self.links = {name: self.connect(name) for name in MEMBERS}
        self.turn()

    def bond(self):
        """The bond as ovs-vsctl is told of it."""
        yield from ("--", "add-bond", "br0", "bond0", *MEMBERS, "bond_mode=balance-tcp", "lacp=active", "other-config:lacp-time=fast")
        yield f"other-config:lacp-system-id={SYSTEM.hex(':')}"
        yield f"other-config:lacp-system-priority={SYSTEM_PRIORITY}"
        for name, (port, priority) in MEMBERS.items():
            yield from ("--", "set", "interface", name, "type=dummy", f"options:pstream=punix:{self.path(name)}.sock")
            yield f"other-config:lacp-port-id={port}"
            yield f"other-config:lacp-port-priority={priority}"
            yield f"other-config:lacp-aggregation-key={KEY}"

    def configure(self, *words):
        """ovs-vsctl, which waits until ovs-vswitchd has done it if that runs."""
        waits = () if "ovs-vswitchd" in self.processes else ("--no-wait",)
        self.command("ovs-vsctl", f"--db=unix:{self.path('db.sock')}", "--timeout=10", *waits, *words)

    def connect(self, name):
        """Plugs a cable into a member."""
        link = socket.socket(socket.AF_UNIX)
        wait_for(Path(f"{self.path(name)}.sock").exists, f"open {name}")
        link.connect(f"{self.path(name)}.sock")
        return link

    def crash(self):
        """ovs-vswitchd ends, and forgets the bond until it begins anew."""
        self.kill("ovs-vswitchd")
        for link in self.links.values():
            link.close()
        self.links = {}
        self.configure("del-br", "br0")

    def up(self, name, up):
        """The line of a member is up or down."""
        self.control.ask("netdev-dummy/set-admin-state", name, "up" if up else "down")
        self.turn()

    def turn(self):
        """Lets the neighbour do all that it has to do now. A new connection is accepted once in a turn, so each counts as one."""
        for _ in range(TURNS):
            with Control(self.path("ovs-vswitchd.ctl")) as control:
                control.ask("version")

    def warp(self):
        """A tenth of a second passes there."""
        if self.links:
            self.control.ask("time/warp", "100")
            self.turn()

    def send(self, name, frame):
        """A frame to the neighbour, which does at once what follows from it; a crashed one does not hear it."""
        if self.links:
            self.links[name].sendall(len(frame).to_bytes(2, "big") + frame)
            self.turn()

    def received(self, name):
        """The frames that the neighbour sent on a member since they were last read."""
        while self.links and select.select([self.links[name]], [], [], 0)[0]:
            length = int.from_bytes(self.take(name, 2), "big")
            yield self.take(name, length)

    def take(self, name, count):
        """So many octets from a member."""
        octets = b""
        while len(octets) < count:
            part = self.links[name].recv(count - len(octets))
            if not part:
                raise RuntimeError(f"the neighbour closed {name}")
            octets += part
        return octets

    def show(self, command):
        """What a command of the neighbour's says of each member: its name, then text up to the next."""
        return dict(re.findall(r"^member:? (\w+): ?(.*?)(?=^member|\Z)", self.control.ask(command), re.MULTILINE | re.DOTALL))

    def members(self):
        """What the neighbour says of its members."""
        lacp, bond = self.show("lacp/show"), self.show("bond/show")
        return {name: Member(lacp[name], bond[name]) for name in MEMBERS}

    def counts(self, name):
        """How many LACPDUs a member took, and how many it found bad."""
        text = self.show("lacp/show-stats")[name]
        return tuple(int(Member.field(text, f"RX {kind}")) for kind in ("PDUs", "Bad PDUs"))

    def markers(self, name):
        """How many Markers a member counted."""
        return int(Member.field(self.show("lacp/show-stats")[name], "RX Marker Request PDUs"))

    def negotiated(self):
        """Whether the bond as a whole says 'negotiated', which it also does before any frame."""
        return "negotiated" in Member.field(self.control.ask("lacp/show"), "status")
