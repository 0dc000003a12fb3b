"""Hosts that one switch joins by wires of the kernel: packets take microseconds, and nothing is done to them."""
import contextlib
import functools
import typing

from harness.processes import Fault
from harness.program import run
from lab.hosts import DEVICE, Host, Lab, do, unable

PREFIX = "ttmaster"
SWITCH, BRIDGE = "switch", "bridge0"
PROGRAMS = ("ip", "setpriv")


@functools.cache
def missing() -> str:
    """Why no hosts can be made here, or nothing."""
    if why := unable(PROGRAMS):
        return why
    try:
        with Wires(""):
            return ""
    except (Fault, OSError) as fault:
        return f"no namespaces with a switch: {fault}"


class Wired(Host):
    """A host with a wire to the switch."""

    def plug(self) -> None:
        end = f"to-{self.name}"
        switch = self.lab.space_of(SWITCH)
        do("ip", "-n", switch, "link", "add", end, "type", "veth", "peer", "name", DEVICE, "netns", self.space)
        do("ip", "-n", switch, "link", "set", end, "master", BRIDGE, "up")


class Wires(Lab):
    """Hosts round a switch, which is made first."""
    prefix = PREFIX

    def build(self) -> None:
        space = self.space_of(SWITCH)
        self.stack.callback(run, ["ip", "netns", "del", space])
        do("ip", "netns", "add", space)
        do("ip", "-n", space, "link", "add", BRIDGE, "type", "bridge")
        do("ip", "-n", space, "link", "set", BRIDGE, "up")

    def wired(self, name: str, *addresses: str) -> Wired:
        self.hosts[name] = Wired(self, name, addresses)
        return self.hosts[name]

    def start(self, kind: typing.Callable, *words, **settings):
        """Makes a resource of this kind, which ends with the lab."""
        return self.stack.enter_context(contextlib.closing(kind(*words, **settings)))
