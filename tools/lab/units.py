"""Machines that are started again once they have ended by a break, as their units do, and masters over a server of NTP that can lie."""
import os
import struct
import threading
import time
import typing

from harness.processes import SECOND
from harness.program import read, read_text
from lab.hosts import Host
from lab.masters import RECEIVER, NtpMaster
from lab.servers import PORT, Chronyd
from lab.services import KeyFile, Machine, sum_in

#: The status with which a machine ends that has noticed that an assumption was broken.
BROKEN = 3
EVERY, MOST_AHEAD_S = "500ms", 0.5
#: A folder of a machine, and what it has there.
DISK, ON_DISK = "disk", ("status", "evidence", "shared")
#: The shared file: where its index is, and where its two slots are, of an index, a life, and the last clock reading at which that may be used.
INDEX, SLOT = struct.Struct("<16xQ"), struct.Struct("<Q32xQ16xQ")
SLOTS_AT = (64, 192)


class UnitMachine(Machine):
    """A machine with a unit. It is down from when it was killed until it is started; starting one that runs does nothing. Its status, evidence and
    shared file are in a folder of theirs."""

    def __init__(self, host: Host, *words, **settings):
        self.lock, self.is_down = threading.RLock(), False
        os.makedirs(os.path.join(host.lab.room, host.name, DISK), exist_ok=True)
        super().__init__(host, *words, **settings)

    def start(self) -> None:
        with self.lock:
            if not self.running or self.running.poll() is not None:
                super().start()
            self.is_down = False

    def kill(self) -> None:
        with self.lock:
            self.is_down = True
            super().kill()

    def restart(self) -> None:
        with self.lock:
            super().restart()

    def path(self, name: str) -> str:
        return super().path(os.path.join(DISK, name) if name in ON_DISK else name)

    def life(self) -> int:
        """The number of its life of now, or of its last one."""
        return int(read_text(os.path.join(self.path("state"), "epoch")).split()[2])

    def shared_life(self) -> int:
        """The life whose time stands in its shared file; 0 where none does."""
        if not os.path.isfile(self.path("shared")):
            return 0
        content = read(self.path("shared"))
        index, = INDEX.unpack_from(content)
        slots = [SLOT.unpack_from(content, at) for at in SLOTS_AT]
        return next((life for of_slot, life, last in slots if of_slot == index and last), 0)

    def said_since(self, event: str, since: int) -> list[dict]:
        """The fields of each line of the log that tells of this event from some time since 1970 on."""
        return [fields for fields in self.said(event) if fields["time"] >= since]


class Ended(typing.NamedTuple):
    """A life that ended on its own: when, since 1970, of which machine, and its status."""
    moment: int
    host: str
    status: int


class Units(threading.Thread):
    """The units of all machines of a lab. They keep which lives ended on their own."""
    PAUSE_S = 0.02

    def __init__(self, machines: typing.Iterable[UnitMachine]):
        super().__init__(daemon=True)
        self.machines, self.ends, self.ended = list(machines), list[Ended](), threading.Event()
        self.start()

    def run(self) -> None:
        while not self.ended.wait(self.PAUSE_S):
            for machine in self.machines:
                with machine.lock:
                    status = machine.running.poll()
                    if status is not None and not machine.is_down:
                        self.ends.append(Ended(time.time_ns(), machine.host.name, status))
                        machine.start()

    def close(self) -> None:
        self.ended.set()
        self.join()


class ServedMaster(NtpMaster):
    """A master over a chronyd of its own host, whose clock has an oscillator that is wrong by so many parts per million. It lies where the
    receiver of that server does: the server's clock jumps."""

    def __init__(self, host: Host, source: int, keys: KeyFile, rate: float):
        server = Chronyd(host, f"chronyd-{host.name}", [RECEIVER, "maxclockerror 30", "makestep 0.1 -1"], rate)
        self.server, self.lies = host.lab.keep(server), False
        server.wait_until_synchronised()
        super().__init__(host, source, [f"127.0.0.1:{PORT}"], keys, every=EVERY)

    def behave(self, offset: int, *acts: str) -> None:
        """Its server's receiver is off by so much, or by nothing where that is honest."""
        self.lies = bool(acts) or abs(offset) > SECOND // 1000
        ahead_s = max(-MOST_AHEAD_S, min(MOST_AHEAD_S, offset / SECOND))
        self.server.receivers[0].ahead_s = ahead_s if self.lies else 0.0

    def sum_of(self, metric: str) -> int:
        return sum_in(self.numbers(), metric)
