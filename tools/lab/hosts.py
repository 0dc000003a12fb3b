"""Hosts on this computer: network namespaces that a router joins, with clocks of their own.

Their names begin with the prefix of the lab and the number of the process that made them. Nothing is outside of them but a folder of the same
prefix; all of it goes with the `with` block, and `clean` removes what a process left that was killed.
"""
import contextlib
import ctypes
import fcntl
import functools
import os
import shutil
import signal
import socket
import struct
import subprocess
import sys
import tempfile
import time
import typing

from harness.processes import SECOND, Fault, raw_ns
from harness.program import WARNINGS, compile_c, run, write
from lab.router import LIBC, Router, end_with_parent

PREFIX = "ttfleet"
NAMED, TUN = "/run/netns", "/dev/net/tun"
CLONE_NEWNET, TUNSETIFF, IFF_TUN_NO_PI = 0x40000000, 0x400454CA, 0x1001
DEVICE = "eth0"
TRIED_S = 1_000_000
PROGRAMS = ("ip", "unshare", "mount")


def do(*words: str) -> str:
    """What a command says, which has to end with status 0."""
    ran = run(words)
    if ran.status != 0:
        raise Fault(f"{' '.join(words)}: {ran.error.strip()}")
    return ran.said


def terminated(*_: object) -> None:
    """Ends this process in order."""
    print("terminated", file=sys.stderr, flush=True)
    sys.exit(128 + signal.SIGTERM)


@contextlib.contextmanager
def inside(space: str) -> typing.Iterator[None]:
    """This thread is in a network namespace."""
    own, there = os.open("/proc/self/ns/net", os.O_RDONLY), os.open(os.path.join(NAMED, space), os.O_RDONLY)
    try:
        if LIBC.setns(there, CLONE_NEWNET):
            raise OSError(ctypes.get_errno(), "setns")
        yield
    finally:
        LIBC.setns(own, CLONE_NEWNET)
        os.close(own)
        os.close(there)


def open_device(space: str) -> int:
    """A TUN device in a network namespace: its packets as a descriptor."""
    with inside(space):
        door = os.open(TUN, os.O_RDWR | os.O_NONBLOCK | os.O_CLOEXEC)
        fcntl.ioctl(door, TUNSETIFF, struct.pack("16sH22x", DEVICE.encode(), IFF_TUN_NO_PI))
    return door


def bytes_of(address: str) -> bytes:
    return socket.inet_pton(socket.AF_INET6 if ":" in address else socket.AF_INET, address)


@functools.cache
def has_time_namespaces() -> bool:
    """Whether a program can be started with its clock shifted."""
    ran = run(["unshare", "-T", "--monotonic", str(TRIED_S), sys.executable, "-c", "import time; print(time.monotonic())"])
    return ran.status == 0 and float(ran.said) > time.monotonic() + TRIED_S / 2


def lacking(programs: typing.Iterable[str]) -> str:
    """Which of these programs are not here, or nothing."""
    return " and ".join(program for program in programs if not shutil.which(program))


def unable(programs: typing.Iterable[str]) -> str:
    """What is wanted for hosts and not here, root or these programs, or nothing."""
    wanted = "root" if os.geteuid() != 0 else lacking(programs)
    return wanted and f"it wants {wanted}"


@functools.cache
def missing() -> str:
    """Why no hosts can be made here, or nothing."""
    if why := unable(PROGRAMS):
        return why
    space = f"{PREFIX}-{os.getpid()}-try"
    try:
        do("ip", "netns", "add", space)
        os.close(open_device(space))
    except (Fault, OSError) as fault:
        return f"no namespaces with TUN devices: {fault}"
    finally:
        run(["ip", "netns", "del", space])
    return ""


def is_alive(process: int) -> bool:
    """Whether this process is there, and more than the status that nobody has asked for."""
    try:
        with open(f"/proc/{process}/stat", encoding="ascii", errors="replace") as file:
            return file.read().rpartition(")")[2].split()[0] != "Z"
    except FileNotFoundError:
        return False


def left_behind(prefix: str) -> typing.Iterator[tuple[str, bool]]:
    """The namespaces, and the folders, of processes that are gone."""
    spaces = os.listdir(NAMED) if os.path.isdir(NAMED) else []
    for names, is_space in ((spaces, True), (os.listdir(tempfile.gettempdir()), False)):
        for name in names:
            parts = name.split("-")
            if parts[0] == prefix and parts[1:] and parts[1].isdigit() and not is_alive(int(parts[1])):
                yield name, is_space


def mounted_below(folder: str) -> list[str]:
    """Where something is mounted below a folder."""
    with open("/proc/mounts", encoding="ascii", errors="replace") as file:
        return [words[1] for words in map(str.split, file) if words[1].startswith(f"{folder}/")]


def clean(prefix: str = PREFIX) -> list[str]:
    """Removes what processes left that were killed: what that was."""
    removed = []
    for name, is_space in left_behind(prefix):
        if is_space:
            do("ip", "netns", "del", name)
        else:
            folder = os.path.join(tempfile.gettempdir(), name)
            for place in mounted_below(folder):
                do("umount", place)
            shutil.rmtree(folder)
        removed.append(name)
    return removed


class HostClock:
    """The clock that the processes of a host see, by tools/spoil_calls.c: it runs as fast as it is told."""
    #: A turn is told so long before it comes, so that no process has seen a later time by then.
    AHEAD_NS = 30_000_000

    def __init__(self, folder: str, library: str, shift_s: int):
        os.mkdir(folder)
        self.folder, self.shift_ns = folder, shift_s * SECOND
        self.environment = dict(os.environ, LD_PRELOAD=library, SPOIL=folder)
        self.turns = [(0, 0, 0)]

    def run_by(self, rate: int) -> None:
        """It runs by so many parts per million faster from now on."""
        since, shown, old = self.turns[-1]
        then = raw_ns() + self.shift_ns + self.AHEAD_NS
        self.turns = [self.turns[-1], (then, shown + then - since + (then - since) * old // 1_000_000, rate)]
        self.tell("course", "".join("%d %d %d\n" % turn for turn in self.turns))
        time.sleep(self.AHEAD_NS / SECOND)

    def tell(self, kind: str, text: str) -> None:
        """Calls of this kind show this from now on."""
        draft = os.path.join(self.folder, "draft")
        write(draft, text.encode())
        os.rename(draft, os.path.join(self.folder, kind))


class Host:
    """A host, with a loopback and a device of these addresses. Its processes begin behind the words of `enter`."""
    clock: HostClock | None = None

    def __init__(self, lab: "Lab", name: str, addresses: typing.Sequence[str], shift_s: int = 0):
        self.lab, self.name, self.addresses, self.space = lab, name, list(addresses), lab.space_of(name)
        self.shift_s = shift_s if has_time_namespaces() else 0
        self.enter = ["ip", "netns", "exec", self.space]
        if self.shift_s:
            self.enter += ["unshare", "-T", "--monotonic", str(shift_s), "--boottime", str(shift_s)]
        lab.stack.callback(run, ["ip", "netns", "del", self.space])
        do("ip", "netns", "add", self.space)
        self.plug()
        with inside(self.space):
            write("/proc/sys/net/ipv4/ip_forward", b"0")
        self.set_up()

    def plug(self) -> None:
        """Makes its device, whose packets the router reads."""
        self.door = open_device(self.space)

    def set_up(self) -> None:
        self.ip("link", "set", "lo", "up")
        self.ip("link", "set", DEVICE, "up", "mtu", "1500")
        for address in self.addresses:
            self.ip("addr", "replace", f"{address}/128" if ":" in address else f"{address}/32", "dev", DEVICE, *(["nodad"] if ":" in address else []))
        for family in sorted({"-6" if ":" in address else "-4" for address in self.addresses}):
            self.ip(family, "route", "replace", "default", "dev", DEVICE)

    def ip(self, *words: str) -> str:
        return do("ip", "-n", self.space, *words)

    def add_clock(self) -> None:
        """From now on processes are started with a clock that can be told its rate."""
        self.clock = HostClock(os.path.join(self.lab.room, f"clock-{self.name}"), self.lab.spoiling, self.shift_s)

    def at(self, port: int, family: int = 4) -> str:
        """An address of it with a port, as settings have it."""
        address = next(address for address in self.addresses if (":" in address) == (family == 6))
        return f"[{address}]:{port}" if family == 6 else f"{address}:{port}"

    def start(self, words: typing.Sequence[str], **how) -> subprocess.Popen:
        """Starts a process, which is killed when this one is dead."""
        how = {"stdin": subprocess.PIPE, "env": self.clock and self.clock.environment, **how}
        return subprocess.Popen([*self.enter, *words], preexec_fn=end_with_parent, **how)


class Lab:
    """Hosts, the router between them, and what runs on them."""
    prefix = PREFIX

    def __init__(self, program: str, seed: int = 1):
        self.program, self.seed = os.path.realpath(program), seed
        self.hosts: dict[str, Host] = {}
        self.stack = contextlib.ExitStack()

    def __enter__(self) -> "Lab":
        signal.signal(signal.SIGTERM, terminated)
        try:
            self.room = self.stack.enter_context(tempfile.TemporaryDirectory(prefix=self.space_of("")))
            os.chmod(self.room, 0o755)
            self.build()
        except BaseException:
            self.end()
            raise
        return self

    def __exit__(self, *_: object) -> None:
        self.end()

    def end(self) -> None:
        """Ends and removes all; nothing interrupts that."""
        before = signal.signal(signal.SIGINT, signal.SIG_IGN), signal.signal(signal.SIGTERM, signal.SIG_IGN)
        self.stack.close()
        signal.signal(signal.SIGINT, before[0])
        signal.signal(signal.SIGTERM, before[1])

    def space_of(self, name: str) -> str:
        """The network namespace of a host."""
        return f"{self.prefix}-{os.getpid()}-{name}"

    def build(self) -> None:
        """Makes the hosts; here none."""

    @functools.cached_property
    def spoiling(self) -> str:
        """The library that makes clocks of hosts."""
        return compile_c("spoil_calls", self.room, *WARNINGS, "-Wno-pedantic", "-shared", "-fPIC")

    def host(self, name: str, addresses: typing.Sequence[str], shift_s: int = 0) -> Host:
        """Adds a host, before they are joined."""
        self.hosts[name] = Host(self, name, addresses, shift_s)
        return self.hosts[name]

    def join(self, tap: str | None = None) -> None:
        """Joins all hosts by a router."""
        addresses = {bytes_of(address): host.name for host in self.hosts.values() for address in host.addresses}
        self.router = self.keep(Router({name: host.door for name, host in self.hosts.items()}, addresses, tap, self.seed))

    def keep(self, resource):
        """Closes it with the lab."""
        return self.stack.enter_context(contextlib.closing(resource))
