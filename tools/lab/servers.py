"""Debian's servers of NTP on hosts, each with a clock of its own: chronyd and ntpsec."""
import functools
import os
import re
import shutil
import subprocess
import time
import typing

from harness import processes
from harness.ntp import Refused, Reply, ask
from harness.processes import SECOND, Fault
from harness.program import run, write
from lab import wires
from lab.clocks import OwnClock, Receiver, Receivers, compile_clock
from lab.hosts import Host, inside

#: Where tools/prepare unpacks them.
CACHE = "/var/cache/truetime"
#: The server has not even the right to set the host's clock, were it to ask for that.
NO_CLOCK = ["setpriv", "--bounding-set=-sys_time", "--inh-caps=-sys_time"]
PORT = 123


@functools.cache
def path_of(program: str) -> str:
    """Where a program is: unpacked by tools/prepare, or installed, or nowhere."""
    folders = [os.path.join(CACHE, "usr/sbin"), os.path.join(CACHE, "usr/bin"), "/usr/sbin", "/usr/bin"]
    return shutil.which(program, path=os.pathsep.join(folders)) or ""


@functools.cache
def no_chronyd() -> str:
    """Why chronyd cannot be run here, or nothing."""
    path = path_of("chronyd")
    return "" if path and run([path, "-v"]).status == 0 else "it wants chronyd, which tools/prepare unpacks"


@functools.cache
def missing() -> str:
    """Why no servers can be run here, or nothing."""
    if lacking := [program for program in ("chronyd", "chronyc", "ntpd") if not path_of(program)]:
        return f"it wants {' and '.join(lacking)}, which tools/prepare unpacks"
    for words in ([path_of("chronyd"), "-v"], [path_of("ntpd"), "-V"]):
        if run(words).status != 0:
            return f"{words[0]} cannot be run"
    return wires.missing()


class Server(processes.Process):
    """A server of NTP on a host, with a folder of its own."""

    def __init__(self, host: Host, name: str, rate: float, ahead_ns: int = 0):
        self.host, self.folder = host, os.path.join(host.lab.room, name)
        os.mkdir(self.folder, 0o700)
        self.clock = OwnClock(self.path("clock"), host.lab.clock_library, rate, ahead_ns)
        super().__init__(host.lab, name, [])

    def path(self, name: str) -> str:
        return os.path.join(self.folder, name)

    def run(self, *words: str, **environment: str) -> None:
        with open(self.log, "ab") as log:
            self.running = self.host.start([*NO_CLOCK, *words], stdin=subprocess.DEVNULL, stdout=log, stderr=log,
                                           env={**self.clock.environment, **environment})

    def reply(self, seconds: float = 1.0) -> Reply:
        """What it says to a request from its own host."""
        with inside(self.host.space):
            return ask(self.host.addresses[0], PORT, seconds)

    def wait_until_synchronised(self, seconds: float = 40.0) -> Reply:
        """What it says once it has a time to show."""
        end = time.monotonic() + seconds
        while True:
            try:
                return self.reply()
            except (OSError, Refused) as fault:
                if time.monotonic() > end or self.running.poll() is not None:
                    raise Fault(f"{self.name} is not synchronised in {seconds} seconds: {fault}: {self.end_of_log()}") from fault
            time.sleep(0.1)


class Chronyd(Server):
    """A chronyd by these lines of its file. With `@receiver` among its words a line has the path of a receiver. All of them may show a time that is
    ahead."""

    def __init__(self, host: Host, name: str, lines: typing.Sequence[str], rate: float = 0.0, ahead_ns: int = 0):
        self.lines, self.receivers, self.ahead_ns = list(lines), list[Receiver](), ahead_ns
        super().__init__(host, name, rate, ahead_ns)

    def start(self) -> None:
        if not os.path.isfile(self.path("chrony.conf")):
            self.write_file()
        self.run(path_of("chronyd"), "-d", "-U", "-u", "root", "-f", self.path("chrony.conf"))

    def write_file(self) -> None:
        text = "".join(f"{re.sub('@receiver', self.add_receiver, line)}\n" for line in self.lines)
        write(self.path("chrony.conf"), (text + f"bindcmdaddress {self.path('control')}\ncmdport 0\npidfile {self.path('pid')}\n"
                                         f"driftfile {self.path('drift')}\nallow\n").encode())

    def add_receiver(self, _: re.Match) -> str:
        path = self.path(f"receiver-{len(self.receivers)}")
        self.receivers.append(self.host.lab.receivers.add(path, self.clock, self.ahead_ns / SECOND))
        return path

    def poll_every(self, exponent: int) -> None:
        """It polls its servers every so many seconds, as a power of 2, from the next poll on."""
        for server in (line.split()[1] for line in self.lines if line.startswith("server ")):
            for word in ("maxpoll", "minpoll"):
                self.ask(word, server, str(exponent))

    def ask(self, *words: str) -> str:
        """What it answers to a command of chronyc."""
        ran = run([path_of("chronyc"), "-h", self.path("control"), "-c", *words])
        if ran.status != 0:
            raise Fault(f"chronyc {' '.join(words)}: {ran.said}{ran.error}")
        return ran.said

    def root_distance_ns(self) -> int:
        """What its clock may be wrong by, by `chronyc tracking`: system time, root dispersion, and half the root delay."""
        cells = self.ask("tracking").strip().split(",")
        return round(1e9 * (abs(float(cells[4])) + float(cells[11]) + float(cells[10]) / 2))


class Ntpd(Server):
    """ntpsec by these lines of its file, which knows from an earlier life how fast its clock runs."""

    def __init__(self, host: Host, name: str, lines: typing.Sequence[str], rate: float = 0.0):
        self.lines, self.rate = list(lines), rate
        super().__init__(host, name, rate)

    def start(self) -> None:
        write(self.path("drift"), f"{-self.rate}\n".encode())
        lines = [f"driftfile {self.path('drift')}", "disable kernel", "tos maxdist 3", "restrict default", *self.lines]
        write(self.path("ntp.conf"), "".join(f"{line}\n" for line in lines).encode())
        self.run(path_of("ntpd"), "-n", "-g", "-N", "-c", self.path("ntp.conf"), OWN_STAMPS="1")


class Servers(wires.Wires):
    """Hosts for servers, with receivers."""

    def build(self) -> None:
        super().build()
        self.clock_library = compile_clock(self)
        self.receivers = self.keep(Receivers())

    def chronyd(self, host: str, *lines: str, rate: float = 0.0, name: str = "") -> Chronyd:
        return self.start(Chronyd, self.hosts[host], name or f"chronyd-{host}", lines, rate)

    def ntpd(self, host: str, *lines: str, rate: float = 0.0) -> Ntpd:
        return self.start(Ntpd, self.hosts[host], f"ntpd-{host}", lines, rate)
