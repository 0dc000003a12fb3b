"""Masters over servers of NTP, a machine over five of them, and a judge of what they say."""
import contextlib
import dataclasses
import os
import socket
import threading
import time
import typing

from harness.metrics import numbers_in
from harness.ntp import FakeServer, Says
from harness.processes import Fault, fields_of
from harness.program import read_text
from harness.wire import ANSWER_BYTES, Poll, ends_in
from lab.hosts import Host, inside
from lab.servers import PORT, Chronyd, Ntpd, Servers
from lab.services import POLLS, KeyFile, Machine, OnHost, Source, new_key, sum_in, wait_until
from lab.users import Users

SOURCES = 5
SETTINGS = {"poll": "200ms", "wait": "100ms", "max_width": "1s"}
#: The lines of a chronyd with a receiver, and what its server lines have in common; polls are fast, since a run is short.
RECEIVER = "refclock SOCK @receiver refid GPS poll 0 precision 1e-6 delay 2e-6"
FAST = "iburst minpoll -1 maxpoll -1"
#: A line of ntp.conf by which it answers as often as a machine polls.
NO_LIMIT = "limit average 50 burst 100"
LOOKS_S, READY_S = 0.1, 30


def answer_of(address: str, source: int, door: socket.socket, nonce: int) -> tuple[int, int] | None:
    """The interval of an open master, or nothing where it is silent."""
    poll = Poll(source=source, nonce=nonce).packet
    host, _, port = address.rpartition(":")
    door.sendto(poll, (host, int(port)))
    try:
        while True:
            packet = door.recv(100)
            if len(packet) == ANSWER_BYTES and packet[8:16] == poll[8:16]:
                return ends_in(packet)
    except TimeoutError:
        return None


class NtpMaster(OnHost):
    """A master over servers of NTP, with further options; without keys it is asked on its own host."""

    def __init__(self, host: Host, source: int, servers: typing.Sequence[str], keys: KeyFile | None = None, listen: str = "", name: str = "",
                 **options):
        self.source, self.address = source, listen or (host.at(POLLS) if keys else f"127.0.0.1:{POLLS + source}")
        name = name or f"master-{source}-{host.name}"
        self.status_path = os.path.join(host.lab.room, f"{name}.status")
        words = ["master", "--source", str(source), "--listen", self.address, "--status", self.status_path]
        for server in servers:
            words += ["--ntp", server]
        for option, value in options.items():
            words += [f"--{option.replace('_', '-')}", *([] if value is True else [str(value)])]
        super().__init__(host, name, [*words, *(["--keys", keys.path] if keys else [])])

    def numbers(self) -> dict:
        """The numbers of its status but for the label of its source; none before it wrote one."""
        text = read_text(self.status_path) if os.path.isfile(self.status_path) else ""
        return numbers_in(text.replace(f'{{source="{self.source}",', "{").replace(f'{{source="{self.source}"}}', "")) if text else {}

    def of_server(self, what: str, server: int = 0):
        """A number of its status about a server, by the end of its name."""
        return self.numbers().get(f'truetime_master_server_{what}{{server="{server}"}}')

    def of_all(self, what: str) -> int:
        """The sum of a number of its status over its labels, by the end of its name."""
        return sum_in(self.numbers(), f"truetime_master_{what}")

    def said_all(self) -> list[dict]:
        """The fields of each line of its log."""
        return [fields for fields in map(fields_of, read_text(self.log).splitlines(keepends=True)) if fields]


@dataclasses.dataclass
class Seen:
    """What a master said over time: how many answers, the wrong ones, by how much the worst of them, and how often it was silent."""
    answers: int = 0
    wrong: int = 0
    worst_ns: int = 0
    silent: int = 0
    widths: list[int] = dataclasses.field(default_factory=list)


class Watch(threading.Thread):
    """Asks open masters of a host again and again, and judges each answer by the host's clock, which is right."""

    def __init__(self, masters: typing.Sequence[NtpMaster], pause_s: float = LOOKS_S):
        super().__init__(daemon=True)
        self.masters, self.pause_s, self.ended = list(masters), pause_s, threading.Event()
        self.seen = {master.name: Seen() for master in self.masters}
        with inside(self.masters[0].host.space):
            self.door = socket.socket(socket.AF_INET, socket.SOCK_DGRAM)
        self.door.settimeout(0.2)
        self.start()

    def run(self) -> None:
        nonce = 0
        while not self.ended.wait(self.pause_s):
            for master in self.masters:
                nonce += 1
                seen, before = self.seen[master.name], time.time_ns()
                answer = answer_of(master.address, master.source, self.door, nonce)
                after = time.time_ns()
                if answer is None:
                    seen.silent += 1
                    continue
                seen.answers += 1
                seen.widths.append(answer[1] - answer[0])
                off = max(answer[0] - after, before - answer[1])
                seen.wrong += off > 0
                seen.worst_ns = max(seen.worst_ns, off)

    def close(self) -> None:
        self.ended.set()
        self.join()
        self.door.close()


class Masters(Servers):
    """Hosts at 10.78.0.1 and on, in the order of `names`; masters, and a machine over them."""
    names: typing.Sequence[str] = ("m", )

    def __init__(self, program: str, names: typing.Sequence[str] = (), seed: int = 1):
        super().__init__(program, seed)
        self.names = names or self.names

    def build(self) -> None:
        super().build()
        for number, name in enumerate(self.names):
            self.wired(name, f"10.78.0.{number + 1}")
        self.masters: list[NtpMaster] = []

    def at(self, name: str, port: int = PORT) -> str:
        """The address of a host, with the port of NTP."""
        return self.hosts[name].at(port)

    def server_lines(self, *names: str, how: str = FAST) -> list[str]:
        """Lines of chrony.conf or ntp.conf for these hosts as servers."""
        return [f"server {self.hosts[name].addresses[0]} {how}" for name in names]

    def fake(self, host: str, says: Says | None = None) -> FakeServer:
        """A server of a script at port 123 of a host."""
        with inside(self.hosts[host].space):
            return self.keep(FakeServer(says, self.hosts[host].addresses[0], PORT))

    def master(self, host: str, *servers: str, **options) -> NtpMaster:
        """A master on a host without keys; the next of the machine's sources."""
        self.masters.append(self.start(NtpMaster, self.hosts[host], len(self.masters), servers, **options))
        return self.masters[-1]

    def machine(self, host: str, keys: KeyFile | None = None, numbers: typing.Sequence[int] = (), **settings) -> Machine:
        """A machine over all masters so far, once it has a time to show; `numbers` are those of the masters' keys."""
        sources = [Source(master.address, (numbers[place], ) if numbers else ()) for place, master in enumerate(self.masters)]
        machine = self.keep(Machine(self.hosts[host], 0, sources, keys, **{**SETTINGS, **settings}))
        machine.wait_until_ready(READY_S)
        return machine

    def users(self, machine: Machine, seconds: float, pause_ms: int = 20) -> Users:
        """Users of a machine, in a first phase `run`."""
        users = self.keep(Users(self))
        users.begin("run")
        users.start(machine, seconds, 2, 1, pause_ms)
        return users

    def watch(self, *masters: NtpMaster) -> Watch:
        return self.keep(Watch(masters or self.masters))

    def ended(self) -> typing.Iterator[str]:
        """The masters that ended on their own."""
        for master in self.masters:
            if master.has_ended():
                yield f"{master.name} ended with status {master.running.returncode}: {master.end_of_log()[-300:]}"


class Strata(Masters):
    """Five hosts with a server each: two of stratum 1, chronyd and ntpsec of stratum 2, chronyd of stratum 3, all with a master that asks the
    server of its own host, and a host m with a machine over these. Oscillators are wrong by some parts in 100,000. ntpsec has no time to show
    in the first 15 seconds, and its master is silent till then."""
    names = ("a", "b", "c", "d", "e", "m")

    def start_servers(self) -> None:
        first = [self.chronyd("a", RECEIVER, "maxclockerror 30", rate=30), self.chronyd("b", RECEIVER, "maxclockerror 30", rate=-25)]
        for server in first:
            server.wait_until_synchronised()
        second = [self.chronyd("c", *self.server_lines("a", "b"), "maxclockerror 30", rate=-40),
                  self.ntpd("d", *self.server_lines("a", how="iburst minpoll 0 maxpoll 0"), NO_LIMIT, rate=15)]
        second[0].wait_until_synchronised()
        third = self.chronyd("e", *self.server_lines("c"), "maxclockerror 30", rate=-10)
        third.wait_until_synchronised()
        self.servers: list[Chronyd | Ntpd] = [*first, *second, third]

    def start_masters(self, **options) -> None:
        """Each master shares a key with the machine's host."""
        self.keys = KeyFile(f"{self.room}/m.keys")
        for source, name in enumerate(self.names[:SOURCES]):
            line, own = new_key(self.program, source, f"m-{name}"), KeyFile(f"{self.room}/{name}.keys")
            own.add(line)
            self.keys.add(line)
            self.masters.append(self.start(NtpMaster, self.hosts[name], source, [f"127.0.0.1:{PORT}"], own, **options))

    def start_machine(self, **settings) -> Machine:
        return self.machine("m", self.keys, range(SOURCES), **settings)


@contextlib.contextmanager
def ahead_of_others() -> typing.Iterator[None]:
    """What is started meanwhile runs before all else on the host, which would widen readings: the way of a poll takes longer where it is busy."""
    os.sched_setscheduler(0, os.SCHED_RR, os.sched_param(1))
    try:
        yield
    finally:
        os.sched_setscheduler(0, os.SCHED_OTHER, os.sched_param(0))


def microseconds(nanoseconds: float) -> str:
    return f"{nanoseconds / 1000:,.0f}"


def until(holds: typing.Callable[[], object], seconds: float, what: str) -> str:
    """What is wrong where this does not come to hold in so many seconds."""
    try:
        wait_until(holds, seconds, what)
    except Fault as fault:
        return str(fault)
    return ""
