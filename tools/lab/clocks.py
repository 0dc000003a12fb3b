"""Clocks of servers, and receivers that show them the true time."""
import math
import mmap
import os
import socket
import struct
import threading
import time

from harness.processes import SECOND
from harness.program import WARNINGS, compile_c, write
from lab.hosts import Lab

#: The fields of `struct own` in tools/own_clock.c, and where the third and the last one are.
FIELDS, SHOWN, WANTED = struct.Struct("=Qqqddqqd"), struct.Struct("=q"), struct.Struct("=d")
SHOWN_AT, WANTED_AT = 16, FIELDS.size - WANTED.size
NO_TICK = 10_000
#: A sample for chronyd: its time in seconds and microseconds, by how much the true time is ahead, three words, and a magic.
SAMPLE = struct.Struct("=qqdiiii")
MAGIC = 0x534F434B
SAMPLES_S = 0.25


def compile_clock(lab: Lab) -> str:
    """The library that gives a server a clock of its own."""
    return compile_c("own_clock", lab.room, *WARNINGS, "-shared", "-fPIC")


class OwnClock:
    """The clock of a server, whose oscillator is wrong by so many parts per million."""

    def __init__(self, path: str, library: str, rate: float = 0.0, ahead_ns: int = 0):
        now = time.time_ns()
        write(path, FIELDS.pack(0, now, now + ahead_ns, rate * 1e-6, rate, NO_TICK, 0, rate).ljust(mmap.PAGESIZE, b"\0"))
        self.environment = dict(os.environ, LD_PRELOAD=library, OWN_CLOCK=path)
        with open(path, "r+b") as file:
            self.page = mmap.mmap(file.fileno(), mmap.PAGESIZE)

    def run_by(self, rate: float) -> None:
        """Its oscillator is wrong by so much from the next time on that the server looks at it."""
        WANTED.pack_into(self.page, WANTED_AT, rate)

    def step(self, nanoseconds: int) -> None:
        """It shows so much more from now on."""
        shown, = SHOWN.unpack_from(self.page, SHOWN_AT)
        SHOWN.pack_into(self.page, SHOWN_AT, shown + nanoseconds)

    def ahead_ns(self) -> int:
        """How far it is ahead of the true time."""
        while True:
            turns, since, shown, rate, *_ = FIELDS.unpack_from(self.page)
            now = time.time_ns()
            if turns % 2 == 0 and FIELDS.unpack_from(self.page)[0] == turns:
                return shown - since + math.floor((now - since) * rate)


class Receiver:
    """A receiver of the true time, or of one that is so far ahead of it, that tells a chronyd of it: `refclock SOCK PATH`. It may announce a leap
    second by a 1."""

    def __init__(self, path: str, clock: OwnClock, ahead_s: float = 0.0):
        self.path, self.clock, self.ahead_s, self.leap, self.is_heard = path, clock, ahead_s, 0, True
        self.door = socket.socket(socket.AF_UNIX, socket.SOCK_DGRAM)

    def close(self) -> None:
        self.door.close()

    def tell(self) -> None:
        ahead_ns = self.clock.ahead_ns()
        seconds, rest = divmod(time.time_ns() + ahead_ns, SECOND)
        sample = SAMPLE.pack(seconds, rest // 1000, self.ahead_s - ahead_ns / SECOND, 0, self.leap, 0, MAGIC)
        if self.is_heard:
            try:
                self.door.sendto(sample, socket.MSG_DONTWAIT, self.path)
            except OSError:  # its chronyd is not there
                pass


class Receivers(threading.Thread):
    """All receivers of a lab."""

    def __init__(self):
        super().__init__(daemon=True)
        self.all: list[Receiver] = []
        self.ended = threading.Event()
        self.start()

    def add(self, path: str, clock: OwnClock, ahead_s: float = 0.0) -> Receiver:
        self.all.append(Receiver(path, clock, ahead_s))
        return self.all[-1]

    def run(self) -> None:
        while not self.ended.wait(SAMPLES_S):
            for receiver in list(self.all):
                receiver.tell()

    def close(self) -> None:
        self.ended.set()
        self.join()
        for receiver in self.all:
            receiver.close()
