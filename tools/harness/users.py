"""Clients of the time service, good and bad ones."""
import collections
import contextlib
import dataclasses
import os
import random
import socket
import time
import typing

from harness.processes import truetime


class Reading(typing.NamedTuple):
    """What a reader gave, and two looks at a clock around it, since 1970. It has to hold a time between these."""
    before: int
    after: int
    now: typing.Any

    @property
    def earliest(self):
        return self.now.earliest_ns

    @property
    def latest(self):
        return self.now.latest_ns

    @property
    def is_wrong(self):
        return self.latest < self.before or self.earliest > self.after

    def __str__(self):
        return f"the reading {self.earliest} {self.latest} between {self.before} and {self.after}"


class Commit(typing.NamedTuple):
    """The stamp of a commit, and two looks at the real-time clock around it, since 1970. It has to lie between these."""
    began: int
    ended: int
    stamp: int

    @property
    def is_wrong(self):
        return not self.began <= self.stamp < self.ended

    def __str__(self):
        return f"the stamp {self.stamp} of a commit between {self.began} and {self.ended}"


def reading_of(reader, clock=time.time_ns):
    """A reading by this clock."""
    before = clock()
    now = reader.now()
    return Reading(before, clock(), now)


def commit_of(session):
    """A commit, which waits."""
    began = time.time_ns()
    stamp = session.commit()
    return Commit(began, time.time_ns(), stamp)


@dataclasses.dataclass
class Seen:
    """What a client saw."""
    readings: int = 0
    wrong: list = dataclasses.field(default_factory=list)
    lost: int = 0
    refused: collections.Counter = dataclasses.field(default_factory=collections.Counter)
    #: The machine of each commit, when it began and ended, and its stamp.
    commits: list = dataclasses.field(default_factory=list)

    def read(self, reader):
        """A reading, which has to be right."""
        got = reading_of(reader)
        self.readings += 1
        self.wrong += [str(got)] if got.is_wrong else []
        return got.now

    def commit(self, session, machine):
        """A commit, whose stamp has to be right."""
        made = commit_of(session)
        self.commits.append((machine, *made))
        self.wrong += [str(made)] if made.is_wrong else []

    @contextlib.contextmanager
    def failing(self, address, timeout_s):
        """Keeps how calls fail: by a refusal, without a reply, which is wrong, or since the session is lost."""
        try:
            yield
        except truetime.Refused as refused:
            self.refused[refused.number] += 1
        except TimeoutError:
            self.wrong.append(f"no reply of {address} within {timeout_s} seconds")
        except OSError:
            self.lost += 1


def places_for(number, machines):
    """Where the client of this number asks each machine: at the TCP address of one, and at the Unix socket of the next."""
    return [(machine.name, machine.path("socket") if (number + at) % 2 else machine.address) for at, machine in enumerate(machines)]


def use(places, seed, end, timeout_s, pause_s=0.0):
    """Reads and commits until the end, with a pause before each; a place is a machine's name and where it is asked. It is chosen anew for
    each call, and asked again where a session is lost."""
    chance, seen, sessions = random.Random(seed), Seen(), {}
    while time.monotonic() < end:
        time.sleep(pause_s)
        machine, address = chance.choice(places)
        with seen.failing(address, timeout_s):
            if address not in sessions:
                sessions[address] = truetime.Session(address, timeout_s)
            if chance.random() < 0.5:
                seen.read(sessions[address])
            else:
                seen.commit(sessions[address], machine)
            continue
        if address in sessions:
            sessions.pop(address).close()
        time.sleep(0.02)
    for session in sessions.values():
        session.close()
    return seen


def read_shared(path, end):
    """Reads a shared file until the end. No publication may come before one that was read."""
    seen, last = Seen(), (0, 0)
    while time.monotonic() < end:
        try:
            with truetime.Client(path, os.geteuid()) as client:
                while time.monotonic() < end:
                    now = seen.read(client)
                    if (now.epoch, now.number) < last:
                        seen.wrong.append(f"publication {now.epoch} {now.number} behind {last}")
                    last = now.epoch, now.number
                    time.sleep(0.001)
        except truetime.Refused as refused:
            seen.refused[refused.number] += 1
        time.sleep(0.02)
    return seen


def come_in_turn(address, number, timeout_s):
    """Clients that come one after the other and ask for the time; what they saw."""
    seen = Seen()
    for _ in range(number):
        with seen.failing(address, timeout_s), truetime.Session(address, timeout_s) as session:
            seen.read(session)
    return seen


def reply_to(session, line):
    """The reply to a line, which is sent again while it waits."""
    while (reply := session.ask(line)).startswith("waiting"):
        pass
    return reply


def latest_of(session):
    return int(reply_to(session, "now").split()[2])


# Bad clients. Each gives what is wrong: it has to have an answer, or a closed connection, within so many seconds.

def is_closed_within(door, seconds):
    """Whether the service closes the connection."""
    end = time.monotonic() + seconds
    while (left := end - time.monotonic()) > 0:
        door.settimeout(left)
        try:
            if not door.recv(65536):
                return True
        except TimeoutError:
            return False
        except OSError:
            return True
    return False


def say_nothing(address, seconds, words=b""):
    """Says nothing, or the beginning of a line."""
    try:
        with socket.create_connection(address, seconds) as door:
            door.sendall(words)
            return [] if is_closed_within(door, seconds) else [f"a client that says {words} alone is not let go"]
    except OSError:
        return []


def never_read(address, seconds):
    """Sends lines until no more are taken; then the service has to give up its writing."""
    end = time.monotonic() + seconds
    try:
        with socket.socket() as door:
            # Small segments and a small buffer are soon full, on both sides.
            door.setsockopt(socket.IPPROTO_TCP, socket.TCP_MAXSEG, 536)
            door.setsockopt(socket.SOL_SOCKET, socket.SO_RCVBUF, 4096)
            door.connect(address)
            door.settimeout(0.2)
            while time.monotonic() < end:
                with contextlib.suppress(TimeoutError):
                    door.send(b"now\n" * 10_000)
    except OSError:
        return []
    return ["a client that never reads is not let go"]


def send_slowly(address, seconds):
    """Sends a byte a second; it may have its reply, or be let go."""
    before = time.time_ns()
    try:
        with socket.create_connection(address, seconds) as door:
            for byte in b"now\n":
                time.sleep(1)
                door.send(bytes([byte]))
            door.settimeout(seconds)
            reply = door.recv(100).split()
    except TimeoutError:
        return ["a client that sends a byte a second has no reply"]
    except OSError:
        return []
    is_right = not reply or reply[0] == b"refused" or before <= int(reply[2]) and int(reply[1]) <= time.time_ns()
    return [] if is_right else [f"a client that sends a byte a second has the reply {reply}"]
