"""Open vSwitch in namespace B, in a folder of its own, with a bond of the two cables' ends: tests/outside/neighbour.py on real interfaces and by the real clock."""

import shutil
import subprocess
import sys
from pathlib import Path

from wires import has_tun, inside

sys.path.append(str(Path(__file__).parents[1] / "outside"))
from neighbour import Control, Member, Neighbour, wait_for  # noqa: E402

MEMBERS, ADDRESS = ("b1", "b2"), "02:00:00:00:0b:ff"
BOND = ("add-bond", "br0", "bond0", *MEMBERS, "bond_mode=balance-tcp", "lacp=active", "other-config:lacp-time=fast")


def is_there():
    """Whether Open vSwitch is installed."""
    return shutil.which("ovs-vswitchd") is not None


class Switch(Neighbour):
    """Open vSwitch with a bond of b1 and b2. Its own interface br0 is a tap, where taps can be had."""

    def launch(self, program, *words):
        """As the neighbour's, in B."""
        control = self.folder / f"{program}.ctl"
        words = inside("B", program, *words, f"--unixctl={control}", f"--log-file={self.path(program)}.log", "-vconsole:off")
        self.processes[program] = subprocess.Popen(words, env=self.environment, stderr=subprocess.DEVNULL)
        wait_for(control.exists, f"start {program}")

    def begin(self):
        """Starts it with the bond."""
        self.launch("ovs-vswitchd", f"unix:{self.path('db.sock')}", "--enable-dummy", "--disable-system")
        self.control = Control(self.path("ovs-vswitchd.ctl"))
        self.configure("add-br", "br0", "--", "set", "bridge", "br0", f"datapath_type={'netdev' if has_tun() else 'dummy'}",
                       f'other-config:hwaddr="{ADDRESS}"', "--", *BOND)

    def open_again(self):
        """Makes its bond anew: of an interface that is gone and there again it does not hear any more."""
        self.configure("del-port", "br0", "bond0")
        self.configure(*BOND)

    def members(self):
        """What it says of its members."""
        lacp, bond = self.show("lacp/show"), self.show("bond/show")
        return {name: Member(lacp[name], bond[name]) for name in MEMBERS}

    def carries(self):
        """The members that it uses."""
        return {name for name, member in self.members().items() if member.carries()}
