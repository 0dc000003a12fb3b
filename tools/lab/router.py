"""The router between hosts: a process that reads the packets of all their devices, and hands each to the host that has the address."""
import collections
import contextlib
import ctypes
import dataclasses
import heapq
import multiprocessing
import multiprocessing.connection
import os
import random
import selectors
import signal
import time
import typing

from lab.packets import datagram_in, ends_of, packet_of, spoiled

LIBC = ctypes.CDLL(None, use_errno=True)
FORKED = multiprocessing.get_context("fork")
MOST_BYTES, AT_ONCE = 65536, 64


@dataclasses.dataclass(frozen=True)
class Way:
    """How packets go from one host to another: the least and the longest delay in seconds, which parts of them are lost, come twice and are
    spoiled, and whether none comes at all. Packets with different delays overtake each other."""
    least: float = 0
    longest: float = 0
    lost: float = 0
    twice: float = 0
    spoiled: float = 0
    cut: bool = False


PLAIN = Way()


def end_with_parent() -> None:
    """This process is killed when its parent is dead."""
    LIBC.prctl(1, signal.SIGKILL)


class Child:
    """A process that was forked from this one to make a call, and ends with it."""

    def __init__(self, call: typing.Callable[[], None]):
        self.process = FORKED.Process(target=self.run, args=(call, ), daemon=True)
        self.process.start()

    @staticmethod
    def run(call: typing.Callable[[], None]) -> None:
        end_with_parent()
        signal.signal(signal.SIGINT, signal.SIG_IGN)
        signal.signal(signal.SIGTERM, signal.SIG_DFL)
        call()

    def close(self) -> None:
        self.process.kill()
        self.process.join()


class Router:
    """The process, from the outside. A host that taps gets a copy of each datagram of others, too."""

    def __init__(self, doors: dict[str, int], addresses: dict[bytes, str], tap: str | None, seed: int):
        self.control, there = FORKED.Pipe()
        self.is_plain = True
        self.child = Child(Forwarding(doors, addresses, tap, seed, there).run)
        there.close()
        for door in doors.values():
            os.close(door)

    def close(self) -> None:
        self.child.close()
        self.control.close()

    def set(self, sources: typing.Iterable[str], targets: typing.Iterable[str], way: Way) -> None:
        """From now on packets from these hosts to these go this way."""
        targets, self.is_plain = list(targets), False
        self.control.send({(source, target): way for source in sources for target in targets})

    def heal(self) -> None:
        """From now on all packets go at once."""
        self.is_plain = True
        self.control.send(None)

    def counts(self) -> collections.Counter:
        """What became of packets so far."""
        self.control.send("counts")
        return self.control.recv()


class Forwarding:
    """The process, from the inside."""

    def __init__(self, doors: dict[str, int], addresses: dict[bytes, str], tap: str | None, seed: int,
                 control: multiprocessing.connection.Connection):
        self.doors, self.addresses, self.tap, self.control = doors, addresses, tap, control
        self.ways: dict[tuple[str, str], Way] = {}
        self.chance, self.counts = random.Random(seed), collections.Counter()
        self.due: list[tuple[float, int, str, bytes]] = []
        self.order = 0

    def run(self) -> None:
        selector = selectors.DefaultSelector()
        selector.register(self.control, selectors.EVENT_READ)
        for name, door in self.doors.items():
            selector.register(door, selectors.EVENT_READ, name)
        while True:
            left = max(0.0, self.due[0][0] - time.monotonic()) if self.due else None
            for key, _ in selector.select(left):
                if key.data is None:
                    self.obey(self.control.recv())
                else:
                    self.take_from(key.data, key.fd)
            while self.due and self.due[0][0] <= time.monotonic():
                self.give(*heapq.heappop(self.due)[2:])

    def obey(self, order: dict | str | None) -> None:
        if order is None:
            self.ways = {}
        elif isinstance(order, dict):
            self.ways.update(order)
        else:
            self.control.send(self.counts)

    def take_from(self, name: str, door: int) -> None:
        with contextlib.suppress(BlockingIOError):
            for _ in range(AT_ONCE):
                self.take(name, os.read(door, MOST_BYTES))

    def take(self, source: str, packet: bytes) -> None:
        target = self.addresses.get(ends_of(packet)[1])
        if target is None:
            self.counts["for no host"] += 1
            return
        datagram = datagram_in(packet)
        if datagram and self.tap not in (None, source):
            self.give(self.tap, packet)
        way = self.ways.get((source, target), PLAIN)
        self.counts["packets"] += 1
        if way.cut or self.chance.random() < way.lost:
            self.counts["lost"] += 1
            return
        if datagram and self.chance.random() < way.spoiled:
            self.counts["spoiled"] += 1
            packet = packet_of(datagram._replace(payload=spoiled(datagram.payload, self.chance)))
        is_twice = self.chance.random() < way.twice
        self.counts["twice"] += is_twice
        for _ in range(1 + is_twice):
            self.send(target, packet, self.chance.uniform(way.least, way.longest))

    def send(self, target: str, packet: bytes, delay: float) -> None:
        if delay <= 0:
            self.give(target, packet)
            return
        self.order += 1
        heapq.heappush(self.due, (time.monotonic() + delay, self.order, target, packet))

    def give(self, target: str, packet: bytes) -> None:
        with contextlib.suppress(OSError):  # its device is down, or has no room
            os.write(self.doors[target], packet)
